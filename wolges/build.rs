// Finds the sources of wolges, and writes the file that names them as modules,
// so that they are compiled unchanged from where they are. Of a program among
// them, whose other functions need modules that are not there, the text of one
// function is copied.

use std::path::{Path, PathBuf};
use std::{env, fs};

const MODULES: &[&str] = &[
    "error",
    "fash",
    "text",
    "bites",
    "bites_str",
    "alphabet",
    "kwg",
    "lexport",
];

const PROGRAM: &str = "main_build";
const FUNCTION: &str = "parse_machine_words";

// The folder that holds `src/kwg.rs`, seen from the root of the repository.
const DEFAULT_FOLDER: &str = "../shared/docs/src";

fn main() {
    println!("cargo::rerun-if-env-changed=WOLGES_SRC");
    let package = env::var("CARGO_MANIFEST_DIR").unwrap();
    let root = Path::new(&package).parent().unwrap();
    // A relative folder counts from the root of the repository, where the
    // commands are typed, and not from this package, where cargo runs us.
    let folder = root.join(env::var_os("WOLGES_SRC").unwrap_or_else(|| DEFAULT_FOLDER.into()));

    if let Err(why) = write(&folder.join("src")) {
        println!("cargo::error={why}");
    }
}

fn write(sources: &Path) -> Result<(), String> {
    let out = env::var("OUT_DIR").unwrap();
    let out = Path::new(&out);
    let modules = modules(sources)?;
    fs::write(out.join("wolges.rs"), modules).expect("the list of modules cannot be written");
    let function = function(sources)?;
    fs::write(out.join("parse_machine_words.rs"), function).expect("the copy cannot be written");
    Ok(())
}

// Without links and dots in the path, as the compiler names the file in its
// messages.
fn file(sources: &Path, name: &str) -> Result<PathBuf, String> {
    let file = sources.join(format!("{name}.rs"));
    println!("cargo::rerun-if-changed={}", file.display());
    file.canonicalize().map_err(|_| {
        format!(
            "the sources of wolges are not there: no file {}. Set WOLGES_SRC to the folder that \
             holds src/kwg.rs (it counts from the root of the repository).",
            file.display()
        )
    })
}

fn modules(sources: &Path) -> Result<String, String> {
    let mut lines = String::new();
    for module in MODULES {
        let file = file(sources, module)?;
        // Much of a module is of no use here; the sources stay as they are, so
        // it is allowed.
        lines += &format!(
            "#[allow(dead_code)]\n#[path = {:?}]\npub mod {module};\n",
            file.to_str().expect("the path is not UTF-8")
        );
    }
    Ok(lines)
}

// The function's text: from the line that names it to the first that is its
// closing brace.
fn function(sources: &Path) -> Result<String, String> {
    let file = file(sources, PROGRAM)?;
    let text = fs::read_to_string(&file).map_err(|e| format!("{}: {e}", file.display()))?;
    let missing = || format!("{} has no function {FUNCTION}", file.display());
    let head = format!("\nfn {FUNCTION}(");
    let start = text.find(&head).ok_or_else(missing)? + 1;
    let end = start + text[start..].find("\n}\n").ok_or_else(missing)?;
    Ok(text[start..end].to_string() + "\n}\n")
}
