//! Finds the library's archive for the differential test, and makes the mutants of the model.

use std::env;
use std::fs;
use std::path::{Path, PathBuf};

fn main() {
    println!("cargo:rustc-check-cfg=cfg(linked)");
    println!("cargo:rerun-if-env-changed=REFBRIDGE_LIB_DIR");
    if let Ok(folder) = env::var("REFBRIDGE_LIB_DIR") {
        println!("cargo:rustc-link-search=native={folder}");
        println!("cargo:rustc-cfg=linked");
        println!("cargo:rerun-if-changed={folder}/librefbridge.a");
    }
    println!("cargo:rerun-if-changed=build.rs");
    println!("cargo:rerun-if-env-changed=REFBRIDGE_FAULTS");
    for subject in SUBJECTS {
        if env::var(format!("CARGO_FEATURE_{}", subject.edits.to_uppercase())).is_ok() {
            println!("cargo:rerun-if-changed={}", subject.edits);
            println!("cargo:rerun-if-changed={}", subject.source);
            make_mutants(&subject, Path::new(&env::var("OUT_DIR").unwrap()));
        }
    }
}

/// A folder of edits, which a feature of the same name asks for, and what they change.
struct Subject {
    edits: &'static str,
    /// The part of the model that is copied for each edit.
    source: &'static str,
    /// The modules of a copy; none where all of them are copied.
    modules: Option<&'static str>,
    /// The type of a call under test, or of a table of them.
    kind: &'static str,
    /// The call of a copy, by the copy's name.
    call: fn(&str) -> String,
}

const SUBJECTS: [Subject; 3] = [
    Subject { edits: "mutants", source: "src/model", modules: None, kind: "Library", call: library },
    Subject {
        edits: "walk_mutants",
        source: "src/walks",
        modules: Some("pub mod compare;\npub mod read;\n"),
        kind: "Compare",
        call: comparison,
    },
    Subject {
        edits: "batch_mutants",
        source: "src/batches",
        modules: Some("pub mod judge;\n"),
        kind: "Check",
        call: |copy| format!("{copy}::judge::check"),
    },
];

fn library(copy: &str) -> String {
    let calls = ["set_up", "answer", "reset", "to_256ths", "to_hundredths"];
    format!("Library {{ {} }}", calls.map(|call| format!("{call}: {copy}::calls::{call}")).join(", "))
}

/// A copy has a result type of its own.
fn comparison(copy: &str) -> String {
    let fields = ["number", "side", "offset", "tail_at", "tail_len", "reference_only", "switch_only", "differing"]
        .map(|field| format!("{field}: w.{field}"));
    let walks = format!("Walks {{ {} }}", fields.join(", "));
    format!("|a, b, list| {{ let w = {copy}::compare::compare(a, b, list); {walks} }}")
}

/// A text of one file of the model, and what stands in its place in the mutant.
struct Edit {
    what: String,
    file: String,
    old: String,
    new: String,
}

/// The first line says what is wrong, the second names the file; then the old text, a line of "=" and the new text.
fn read_edit(path: &Path) -> Edit {
    let text = fs::read_to_string(path).unwrap();
    let mut parts = text.splitn(3, '\n');
    let what = parts.next().unwrap().trim_start_matches("# ").to_string();
    let file = parts.next().unwrap().to_string();
    let (old, new) = parts.next().unwrap().split_once("====\n").expect("a line ====");
    Edit { what, file, old: old.to_string(), new: new.to_string() }
}

/// Which edits are made: REFBRIDGE_FAULTS is "K/N" for every Nth from the Kth on, and all of them where it is not set.
fn chosen(at: usize) -> bool {
    let Ok(share) = env::var("REFBRIDGE_FAULTS") else { return true };
    let (first, of) = share.split_once('/').expect("K/N");
    let (first, of): (usize, usize) = (first.parse().unwrap(), of.parse().unwrap());
    at % of == first - 1
}

fn make_mutants(subject: &Subject, out: &Path) {
    let mut modules = String::new();
    let mut table = format!("pub const MUTANTS: &[(&str, {})] = &[\n", subject.kind);
    for (at, path) in edits_of(subject.edits).iter().enumerate() {
        let edit = read_edit(path);
        stands_once(&edit, subject.source, path);
        if !chosen(at) {
            continue;
        }
        let copy = format!("{}_{}", subject.edits, at + 1);
        let folder = out.join(&copy);
        copy_changed(&edit, subject.source, &folder);
        let root = folder.join("mod.rs");
        if let Some(modules) = subject.modules {
            fs::write(&root, modules).unwrap();
        }
        modules += &format!("#[allow(dead_code, unused)]\n#[path = {root:?}]\nmod {copy};\n");
        let what = format!("{}: {}", path.file_stem().unwrap().to_str().unwrap(), edit.what);
        table += &format!("    ({what:?}, {}),\n", (subject.call)(&copy));
    }
    fs::write(out.join(format!("{}.rs", subject.edits)), format!("{modules}{table}];\n")).unwrap();
}

/// An edit that no longer fits the model stops the build, whether it is chosen or not.
fn stands_once(edit: &Edit, source: &str, path: &Path) {
    let text = fs::read_to_string(Path::new(source).join(&edit.file)).unwrap();
    let found = text.matches(&edit.old).count();
    assert_eq!(found, 1, "{}: its old text stands {found} times in {}", path.display(), edit.file);
}

fn edits_of(folder: &str) -> Vec<PathBuf> {
    let mut edits: Vec<PathBuf> = fs::read_dir(folder).unwrap().map(|entry| entry.unwrap().path()).collect();
    edits.sort();
    edits
}

fn copy_changed(edit: &Edit, source: &str, folder: &Path) {
    fs::create_dir_all(folder).unwrap();
    for entry in fs::read_dir(source).unwrap() {
        let source = entry.unwrap().path();
        let name = source.file_name().unwrap().to_str().unwrap();
        let mut text = fs::read_to_string(&source).unwrap();
        if name == edit.file {
            text = text.replacen(&edit.old, &edit.new, 1);
        }
        fs::write(folder.join(name), text).unwrap();
    }
}
