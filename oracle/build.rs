//! Lays out html2text's own text for this program. Nothing of that text is kept
//! in the repository: it is copied, at each build, from the folder that
//! `HTML2TEXT_SRC` names (see README.md).

use std::path::{Path, PathBuf};
use std::{env, fs, process};

/// Used when `HTML2TEXT_SRC` is not set; relative to this folder.
const DEFAULT_SOURCE: &str = "../../html2text-0.17.4";

const LIB: &str = "src/lib.rs";
const MACROS: &str = "src/macros.rs";
const RENDER: &str = "src/render/mod.rs";
const TEXT_RENDERER: &str = "src/render/text_renderer.rs";

/// The items of lib.rs that text_renderer.rs needs, by their first lines.
const ROOT_ITEMS: [&str; 5] = [
    "trait WhitespaceExt {",
    "impl WhitespaceExt for char {",
    "pub(crate) enum WhiteSpace {",
    "impl WhiteSpace {",
    "pub struct Colour {",
];
const CONFIG_ITEM: &str = "    pub enum ImageRenderMode {";

fn main() {
    let here = PathBuf::from(env::var("CARGO_MANIFEST_DIR").unwrap());
    let out = PathBuf::from(env::var("OUT_DIR").unwrap());
    let source = source_folder(&here);

    fs::create_dir_all(out.join("render")).unwrap();
    fs::write(out.join("macros.rs"), read(&source, MACROS)).unwrap();
    fs::write(out.join("render/mod.rs"), read(&source, RENDER)).unwrap();
    let renderer = with_door(read(&source, TEXT_RENDERER), &here.join("src/door.rs"));
    fs::write(out.join("render/text_renderer.rs"), renderer).unwrap();
    let root = crate_root(&read(&source, LIB), &out);
    fs::write(out.join("crate_root.rs"), root).unwrap();
}

fn source_folder(here: &Path) -> PathBuf {
    println!("cargo::rerun-if-changed=build.rs");
    println!("cargo::rerun-if-env-changed=HTML2TEXT_SRC");
    let named = env::var_os("HTML2TEXT_SRC").map(PathBuf::from);
    here.join(named.unwrap_or_else(|| DEFAULT_SOURCE.into()))
}

fn read(source: &Path, name: &str) -> String {
    let path = source.join(name);
    println!("cargo::rerun-if-changed={}", path.display());
    fs::read_to_string(&path).unwrap_or_else(|error| {
        fail(&format!(
            "cannot read {}: {error}. Set HTML2TEXT_SRC to the folder of html2text 0.17.4 \
             that holds {TEXT_RENDERER}",
            path.display()
        ))
    })
}

/// The file as it is, and one line more: a child module that sees its private items.
fn with_door(mut text: String, door: &Path) -> String {
    text.push_str(&format!("\n#[path = {door:?}] pub(crate) mod door;\n"));
    text
}

/// What the crate's root needs: macros, the items cut out of lib.rs, and `render`.
fn crate_root(lib: &str, out: &Path) -> String {
    let items: String = ROOT_ITEMS.iter().map(|start| item(lib, start)).collect();
    let mode = item(lib, CONFIG_ITEM);
    let macros = out.join("macros.rs");
    let render = out.join("render/mod.rs");
    format!(
        "#[macro_use]\n#[allow(unexpected_cfgs)]\n#[path = {macros:?}]\nmod macros;\n\n\
         {items}#[allow(dead_code)]\nmod config {{\n{mode}}}\n\n\
         #[allow(clippy::all, dead_code, unused, unexpected_cfgs)]\n#[path = {render:?}]\nmod render;\n"
    )
}

/// One item of a source text: from the attributes above its first line down to
/// the closing brace at the same indentation.
fn item(text: &str, start: &str) -> String {
    let lines: Vec<&str> = text.lines().collect();
    let Some(head) = lines.iter().position(|line| *line == start) else {
        fail(&format!("{LIB} has no line `{}`", start.trim()))
    };
    let belongs = |line: &&str| line.trim_start().starts_with(['#', '/']);
    let above = lines[..head].iter().rev().take_while(|line| belongs(line));
    let first = head - above.count();
    let indentation = &start[..start.len() - start.trim_start().len()];
    let closing = format!("{indentation}}}");
    let Some(height) = lines[head..].iter().position(|line| *line == closing) else {
        fail(&format!("{LIB}: `{}` is not closed", start.trim()))
    };
    lines[first..=head + height].join("\n") + "\n\n"
}

fn fail(message: &str) -> ! {
    println!("cargo::error={message}");
    process::exit(1)
}
