//! Writes the oracle's modules from the source folder that `EUNOIA_SRC` names
//! (default `../shared/docs/src` beside the repository), with the listed
//! substitutions, and with the fault that `PLANT` names, if any.

#[allow(dead_code)]
#[path = "build/faults.rs"]
mod faults;
#[path = "build/parts.rs"]
mod parts;
#[allow(dead_code)]
#[path = "build/substitutions.rs"]
mod substitutions;
#[path = "build/text.rs"]
mod text;

use std::path::{Path, PathBuf};
use std::{env, fs};

use parts::{Item, OWN_FILES, Parts, ROOT, SOURCE_FILES, SourceFile};

fn main() {
    println!("cargo:rerun-if-env-changed=EUNOIA_SRC");
    println!("cargo:rerun-if-env-changed=PLANT");
    println!("cargo:rerun-if-changed=build");
    println!("cargo:rerun-if-changed=own");
    let here = PathBuf::from(env::var("CARGO_MANIFEST_DIR").unwrap());
    let out = PathBuf::from(env::var("OUT_DIR").unwrap());
    let source = env::var("EUNOIA_SRC")
        .map_or_else(|_| here.join("../../../../shared/docs/src"), PathBuf::from);
    let plant = env::var("PLANT").ok().filter(|name| !name.is_empty());
    let mut planted = 0;
    let mut write = |name: &str, text: String| {
        let text = plant_fault(plant.as_deref(), name, text, &mut planted);
        let path = out.join(name);
        fs::create_dir_all(path.parent().unwrap()).unwrap();
        fs::write(path, text).unwrap();
    };
    for file in SOURCE_FILES {
        write(file.path, changed(file, &read_source(&source, file.path)));
    }
    for (own, place) in OWN_FILES {
        write(place, fs::read_to_string(here.join("own").join(own)).unwrap());
    }
    if let Some(name) = &plant {
        assert!(planted == 1, "no fault is named {name}");
    }
}

/// A source file, from a tree of folders or from a folder of flat names.
fn read_source(folder: &Path, path: &str) -> String {
    let whole = format!("{ROOT}{path}");
    let flat = format!("src--{}.txt", whole.replace('/', "--"));
    let file = [folder.join(&whole), folder.join(&flat)]
        .into_iter()
        .find(|file| file.is_file())
        .unwrap_or_else(|| panic!("{} has neither {whole} nor {flat}", folder.display()));
    println!("cargo:rerun-if-changed={}", file.display());
    fs::read_to_string(file).unwrap()
}

fn changed(file: &SourceFile, text: &str) -> String {
    let mut text = match &file.parts {
        Parts::Whole { after } => format!("{text}{after}"),
        Parts::Items { uses, items } => {
            let items: Vec<String> =
                items.iter().map(|item| taken(file.path, text, item)).collect();
            format!("{uses}\n{}", items.join("\n"))
        }
    };
    for change in substitutions::SUBSTITUTIONS {
        if change.file == file.path {
            text = text::substitute(file.path, &text, change.find, change.replace, change.times);
        }
    }
    text
}

fn taken(name: &str, text: &str, item: &Item) -> String {
    match item {
        Item::Top(start) => text::take_item(name, text, start),
        Item::Methods { of, names } => {
            let block = text::take_item(name, text, of);
            let methods: Vec<String> =
                names.iter().map(|start| text::take_item(name, &block, start)).collect();
            format!("{of}\n{}}}\n", methods.join("\n"))
        }
    }
}

/// The text with the named fault, if it is one of this file. Every fault of the
/// file must find its place, so that the list does not fall behind.
fn plant_fault(plant: Option<&str>, name: &str, text: String, planted: &mut usize) -> String {
    let mut written = text.clone();
    for fault in faults::faults().filter(|fault| fault.file == name) {
        let faulty = text::substitute(name, &text, fault.find, fault.replace, 1);
        if Some(fault.name) == plant {
            *planted += 1;
            written = faulty;
        }
    }
    written
}
