//! The functions of `include/cerahupo.h`, compiled as C and held against the same taken from the number's digits here,
//! and its calls on a book with an excluded pair. It wants a C compiler, `cc` or what the variable CC names.

use std::io::Write;
use std::path::{Path, PathBuf};
use std::process::{Command, Stdio};
use std::{env, fs};

/// Compiles a C program beside this file with the static library, and returns where it is.
fn built(name: &str) -> PathBuf {
    let root = Path::new(env!("CARGO_MANIFEST_DIR"));
    let folder = PathBuf::from(env!("CARGO_TARGET_TMPDIR"));
    fs::create_dir_all(&folder).expect("cargo's folder for tests can be made");
    let program = folder.join(name);
    let compiler = env::var("CC").unwrap_or_else(|_| "cc".to_string());
    let library = env::var_os("CERAHUPO_LIB").map_or(root.join("../target/staticlib"), PathBuf::from);
    let status = Command::new(compiler)
        .args(["-std=c11", "-Wall", "-Wextra", "-Werror", "-I"])
        .arg(root.join("../include"))
        .arg(root.join("tests/header").join(name).with_extension("c"))
        .arg(library.join("libexports.a"))
        .arg("-o")
        .arg(&program)
        .status()
        .expect("a C compiler is there");
    assert!(status.success(), "the header compiles without a warning");
    program
}

/// The C program's lines for some numbers.
fn told(numbers: &[u64]) -> Vec<String> {
    let mut child = Command::new(built("told"))
        .stdin(Stdio::piped())
        .stdout(Stdio::piped())
        .spawn()
        .expect("the program was compiled");
    let mut input = child.stdin.take().expect("standard input is piped");
    let text: String = numbers.iter().map(|number| format!("{number}\n")).collect();
    let writer = std::thread::spawn(move || input.write_all(text.as_bytes()));
    let output = child.wait_with_output().expect("the program ends");
    writer.join().expect("the writer ends").expect("all numbers are taken");
    String::from_utf8(output.stdout).expect("it prints digits").lines().map(str::to_string).collect()
}

/// What docs/FIRMWARE.md says of a number, in the order in which the C program prints it.
fn expected(number: u64) -> String {
    let bits = |from: u32, to: u32| number >> from & ((1 << (to - from + 1)) - 1);
    let code = bits(0, 4);
    let second = code > 20;
    let accepted = code == 0;
    let value = number >> 5;
    let refusal = if second { code - 16 } else { code };
    [
        code,
        refusal,
        u64::from(accepted),
        value,
        if second { 2 } else { 1 },
        bits(5, 15),
        u64::from((number >> 16) as u32),
        u64::from(number == 32),
        if accepted { value } else { 0 },
        bits(5, 15),
        bits(16, 31),
        bits(32, 47),
        bits(48, 63) + 1,
        if accepted { value } else { 0 },
        u64::from(number == 0),
        bits(16, 31),
        if bits(5, 15) == 3 { 1 } else { 2 },
    ]
    .map(|part| part.to_string())
    .join(" ")
        + &format!(" {}", (value as i64 - 10_000) as i32)
}

#[test]
fn numbers_taken_apart_in_c() {
    let mut numbers: Vec<u64> = (0..70_000).collect();
    let mut state = 1;
    for _ in 0..200_000 {
        // a step of a linear congruential sequence, whose upper bits are used
        state = u64::wrapping_add(u64::wrapping_mul(state, 6_364_136_223_846_793_005), 1_442_695_040_888_963_407);
        numbers.push(state >> (state >> 58));
    }
    numbers.extend([25, 26, 90, 65_600, 844_424_930_328_640, 327_776, u64::MAX]);
    let lines = told(&numbers);
    assert_eq!(lines.len(), numbers.len());
    for (number, line) in numbers.into_iter().zip(lines) {
        assert_eq!(line, expected(number), "{number}");
    }
}

/// The pair stands in the listing, logger and rod say yes on it, and for the choice check and the comparison it never
/// occurs.
#[test]
fn a_pair_in_c() {
    let output = Command::new(built("calls")).output().expect("the program was compiled");
    let text = String::from_utf8(output.stdout).expect("it prints words and digits");
    let listing = "5 3 0 2 16 3 3 0 4 3 0 0 ";
    let told = [
        "1 policies, 1 conditions",
        "logger 1",
        "none 7 lent 77",
        "score 2 and 0",
        "rod 1",
        "traverse 3: 1 0 1",
        "unequal 11 left 7 7 7",
        "no sets 0",
        "never 1 judged 49152",
        "alike 1",
    ];
    assert_eq!(text.lines().collect::<Vec<_>>(), [&[listing], &told[..]].concat());
}
