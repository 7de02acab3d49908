//! Declares the Rust files as modules, in place: nothing of them is changed, and of one
//! file just the functions that are compared are taken.

use std::path::{Path, PathBuf};
use std::{env, fs, io};

/// The files that are compared whole, each a module of the same name; `structs` has what
/// `types` and the operators are about.
const MODULES: [&str; 3] = ["structs", "types", "units"];

/// The files of `operators`, compared whole too.
const OPERATORS: [&str; 3] = ["mod.rs", "binary.rs", "unary.rs"];

/// A module that `operators/mod.rs` names and that is not among the files.
const NOT_AMONG_THEM: &str = "index_assign.rs";

/// The functions of `statements/mod.rs` that are compared.
const INDEXING: [&str; 2] = ["check_index_target", "check_index_any"];

fn main() {
    println!("cargo:rerun-if-env-changed=RL_CHECKER_SRC");
    let source = env::var_os("RL_CHECKER_SRC")
        .expect("RL_CHECKER_SRC must name the folder that holds units.rs");
    let source = Path::new(&source);
    let folder = PathBuf::from(env::var_os("OUT_DIR").expect("cargo sets OUT_DIR"));

    let mut declarations: String = MODULES
        .iter()
        .map(|module| declare(module, &file(source, &format!("{module}.rs"))))
        .collect();
    declarations.push_str(&declare("operators", &operators(source, &folder)));
    declarations.push_str(&declare("indexing", &indexing(source, &folder)));
    fs::write(folder.join("modules.rs"), declarations).expect("modules.rs is written");
}

/// The path of one of the Rust files.
fn file(source: &Path, name: &str) -> PathBuf {
    let file = source.join(name);
    let file = file.canonicalize().unwrap_or_else(|error| panic!("{}: {error}", file.display()));
    println!("cargo:rerun-if-changed={}", file.display());
    file
}

fn declare(module: &str, file: &Path) -> String {
    format!("#[path = {file:?}]\npub mod {module};\n")
}

/// A folder of links to the files of `operators`, with an empty file in place of the
/// module that is not among them; and the path of its `mod.rs`.
fn operators(source: &Path, folder: &Path) -> PathBuf {
    let folder = folder.join("operators");
    fs::create_dir_all(&folder).expect("the folder is made");
    for name in OPERATORS {
        link(&file(source, &format!("operators/{name}")), &folder.join(name))
            .unwrap_or_else(|error| panic!("{name}: {error}"));
    }
    fs::write(folder.join(NOT_AMONG_THEM), "").expect("the empty file is written");
    folder.join(OPERATORS[0])
}

fn link(file: &Path, link: &Path) -> io::Result<()> {
    if link.is_symlink() {
        fs::remove_file(link)?;
    }
    std::os::unix::fs::symlink(file, link)
}

/// The functions of indexing, cut out of their file line by line, with what they name.
fn indexing(source: &Path, folder: &Path) -> PathBuf {
    let whole = fs::read_to_string(file(source, "statements/mod.rs")).expect("the file is read");
    let functions: String = INDEXING.iter().map(|name| function(&whole, name)).collect();
    let module = folder.join("indexing.rs");
    let text = format!(
        "use crate::structs::{{CheckType, TypeChecker}};\n\
         use rl_ast::statements::TypeAnnotation;\n\
         use rl_utils::span::Span;\n\n\
         impl TypeChecker {{\n{functions}}}\n"
    );
    fs::write(&module, text).expect("indexing.rs is written");
    module
}

/// The lines of a method, from its `pub fn` to the brace of the same indentation.
fn function(whole: &str, name: &str) -> String {
    let first = format!("    pub fn {name}(");
    let mut lines = whole.lines().skip_while(|line| !line.starts_with(&first));
    let mut text = String::new();
    loop {
        let line = lines.next().unwrap_or_else(|| panic!("no whole {name} in its file"));
        text.push_str(line);
        text.push('\n');
        if line == "    }" {
            return text;
        }
    }
}
