//! Compiles the baseline with `gcc -O3`, its functions and loops aligned, and where LLVM's headers are installed a reader that calls LLVM's library.

use std::env;
use std::process::Command;

fn main() {
    let folder = env::var("OUT_DIR").expect("cargo sets it");
    for source in ["baseline", "baseline_processors", "baseline_binaries"] {
        let object = format!("{folder}/{source}.o");
        // Where the linker puts a loop would otherwise change its time by a fifth.
        run(Command::new("gcc")
            .args(["-std=gnu99", "-O3", "-falign-functions=64", "-falign-loops=32"])
            .args(["-Wall", "-Wextra", "-Werror", "-o", &object, "-c"])
            .arg(format!("{source}.c")));
        run(Command::new("ar").args(["rcs", &format!("{folder}/libbaseline.a"), &object]));
        println!("cargo:rerun-if-changed={source}.c");
    }
    println!("cargo:rerun-if-changed=baseline.h");
    println!("cargo:rerun-if-changed=baseline_processors.h");
    println!("cargo:rustc-link-search=native={folder}");
    println!("cargo:rustc-link-lib=static=baseline");
    println!("cargo:rustc-link-search=native=../target/staticlib");
    for archive in ["offload", "bench_calls"] {
        println!("cargo:rustc-link-lib=static={archive}");
        println!("cargo:rerun-if-changed=../target/staticlib/lib{archive}.a");
    }
    llvm(&folder);
}

/// Sets `cfg(llvm)` where `llvm-config` names a folder with the header.
fn llvm(folder: &str) {
    println!("cargo:rustc-check-cfg=cfg(llvm)");
    println!("cargo:rerun-if-env-changed=LLVM_CONFIG");
    let config = env::var("LLVM_CONFIG").unwrap_or("llvm-config-19".to_string());
    let include = match Command::new(&config).arg("--includedir").output() {
        Ok(output) => String::from_utf8_lossy(&output.stdout).trim().to_string(),
        Err(_) => return,
    };
    if !std::path::Path::new(&include).join("llvm/Object/OffloadBinary.h").exists() {
        return;
    }
    let object = format!("{folder}/llvm.o");
    run(Command::new("g++").args([
        "-std=c++17",
        "-O3",
        "-fno-exceptions",
        "-fno-rtti",
        "-I",
        &include,
        "-o",
        &object,
        "-c",
        "llvm.cpp",
    ]));
    run(Command::new("ar").args(["rcs", &format!("{folder}/libllvm_reader.a"), &object]));
    println!("cargo:rerun-if-changed=llvm.cpp");
    println!("cargo:rustc-cfg=llvm");
    println!("cargo:rustc-link-lib=static=llvm_reader");
    println!("cargo:rustc-link-lib=dylib=LLVM-19");
    println!("cargo:rustc-link-lib=dylib=stdc++");
}

fn run(command: &mut Command) {
    let status = command.status().unwrap_or_else(|error| panic!("{command:?}: {error}"));
    assert!(status.success(), "{command:?}: {status}");
}
