//! Copies the original's files into the build folder, with the patches listed here and no others.

use std::path::{Path, PathBuf};
use std::{env, fs, process};

const COMPONENTS: &str = "crates/tetra-entities/src/phy/components";
const TRAITS: &str = "crates/tetra-pdus/src/phy/traits";

/// The modules of the original: where each stands, and the module tree it belongs to.
const MODULES: [(&str, &str, &[&str]); 2] = [
    (
        "components",
        COMPONENTS,
        &[
            "burst_consts",
            "demodulator",
            "dsp_types",
            "fir",
            "history",
            "modem_common",
            "modulator",
            "slotter",
            "train_consts",
        ],
    ),
    ("traits", TRAITS, &["rxtx_dev"]),
];

/// Document 01's stand-ins, all in demodulator.rs. Each pattern must stand there exactly once.
const PATCHES: [(&str, &str); 2] = [
    ("filtered.abs()", "crate::stand_ins::magnitude(filtered)"),
    (
        "(sum_q.atan2(sum_i) * (SPS as RealSample / (2.0 * sample_consts::PI))).rem_euclid(SPS as RealSample)",
        "crate::stand_ins::quarter_turns(sum_i, sum_q)",
    ),
];

/// A child module of demodulator.rs, so that its private items are reachable with no visibility changed.
const CHILD_MODULE: &str = "demodulator_private";

fn main() {
    let manifest = PathBuf::from(env::var("CARGO_MANIFEST_DIR").unwrap());
    let out = PathBuf::from(env::var("OUT_DIR").unwrap());
    let source = match env::var("TETRA_SOURCE") {
        Ok(named) => PathBuf::from(named),
        Err(_) => manifest.join("../../shared/docs/src"),
    };
    println!("cargo:rerun-if-env-changed=TETRA_SOURCE");
    println!("cargo:rerun-if-changed=build.rs");

    // What is timed is the original as published.
    let is_bench = env::var("CARGO_FEATURE_BENCH").is_ok();
    if is_bench {
        link_bench();
    }

    let mut tree = String::from("pub mod phy {\n");
    for (module, folder, files) in MODULES {
        tree += &format!("pub mod {module} {{\n");
        for file in files {
            let mut text = read(&source.join(folder).join(format!("{file}.rs")));
            if *file == "demodulator" {
                if !is_bench {
                    text = patched(text);
                }
                text += &declaration(&manifest.join("src"), CHILD_MODULE);
            }
            write(&out.join(format!("{file}.rs")), &text);
            tree += "#[allow(dead_code, unused_imports)]\n";
            tree += &declaration(&out, file);
        }
        tree += "}\n";
    }
    write(&out.join("original.rs"), &(tree + "}\n"));
}

/// Links the static libraries with the timed functions into the bench program.
fn link_bench() {
    println!("cargo:rerun-if-env-changed=BENCH_LIBRARIES");
    let Ok(folder) = env::var("BENCH_LIBRARIES") else {
        stop("BENCH_LIBRARIES must name the folder of libbench_signal.a and libmodem.a");
    };
    for library in ["libbench_signal.a", "libmodem.a"] {
        let library = Path::new(&folder).join(library);
        println!("cargo:rerun-if-changed={}", library.display());
        println!("cargo:rustc-link-arg-bin=bench={}", library.display());
    }
}

fn declaration(folder: &Path, module: &str) -> String {
    format!(
        "#[path = {:?}]\npub mod {module};\n",
        folder.join(format!("{module}.rs"))
    )
}

fn patched(mut text: String) -> String {
    for (pattern, replacement) in PATCHES {
        let found = text.matches(pattern).count();
        if found != 1 {
            stop(&format!(
                "demodulator.rs holds the pattern {pattern:?} {found} times, not once"
            ));
        }
        text = text.replace(pattern, replacement);
    }
    text
}

fn read(path: &Path) -> String {
    println!("cargo:rerun-if-changed={}", path.display());
    fs::read_to_string(path).unwrap_or_else(|e| {
        stop(&format!(
            "the original's {} cannot be read ({e}); TETRA_SOURCE names the folder that holds crates/",
            path.display()
        ))
    })
}

fn write(path: &Path, text: &str) {
    fs::write(path, text).unwrap_or_else(|e| stop(&format!("{}: {e}", path.display())));
}

fn stop(why: &str) -> ! {
    eprintln!("compare: {why}");
    process::exit(1);
}
