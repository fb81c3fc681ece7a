//! Builds the plain C and links it.

use std::env;
use std::path::PathBuf;
use std::process::Command;

const FLAGS: &str = "-O3";
const SOURCES: [&str; 2] = ["baselines", "measure"];

fn main() {
    let out = PathBuf::from(env::var_os("OUT_DIR").expect("cargo tells it"));
    let mut objects = Vec::new();
    for source in SOURCES {
        let object = out.join(source).with_extension("o");
        let mut gcc = Command::new("gcc");
        gcc.args([FLAGS, "-Wall", "-Wextra", "-c", "-o"]).arg(&object).arg(format!("{source}.c"));
        run(&mut gcc);
        objects.push(object);
        println!("cargo::rerun-if-changed={source}.c");
        println!("cargo::rerun-if-changed={source}.h");
    }
    let archive = out.join("libplain.a");
    run(Command::new("ar").arg("crs").arg(&archive).args(&objects));
    println!("cargo::rustc-link-search=native={}", out.display());
    println!("cargo::rustc-link-lib=static=plain");

    println!("cargo::rustc-env=GCC={} {FLAGS}", first_line(Command::new("gcc").arg("--version")));
    let rustc = env::var_os("RUSTC").expect("cargo tells it");
    println!("cargo::rustc-env=RUSTC={}", first_line(Command::new(rustc).arg("--version")));
}

fn run(command: &mut Command) {
    let status = command.status().unwrap_or_else(|error| panic!("{command:?}: {error}"));
    assert!(status.success(), "{command:?}: {status}");
}

fn first_line(command: &mut Command) -> String {
    let output = command.output().unwrap_or_else(|error| panic!("{command:?}: {error}"));
    let text = String::from_utf8_lossy(&output.stdout);
    text.lines().next().unwrap_or_default().to_string()
}
