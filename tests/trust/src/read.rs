//! The sources as items: a definition or a law of a spec, a type that code declares.

use std::collections::BTreeMap;
use std::fs;
use std::path::Path;

#[derive(Clone, Copy, PartialEq)]
pub enum Kind {
    /// To be believed: an abbreviation, a definition by cases, a record, a data type, a struct or an enum of the code.
    Definition,
    /// Checked: a statement with its proof.
    Law,
}

pub struct Item {
    pub name: String,
    pub kind: Kind,
    /// The comment above it, one line.
    pub says: String,
    pub line: usize,
    /// How many, without comments and lines that only close a bracket.
    pub lines: usize,
    pub text: String,
    /// The named numbers of a record that lists such, each with its line and the comment behind it.
    pub parts: Vec<(usize, String, String)>,
}

pub struct File {
    /// As `rules/specs/Day.antt`.
    pub path: String,
    /// Local name to module and name there; a module alias has the name ''.
    pub uses: BTreeMap<String, (String, String)>,
    pub items: Vec<Item>,
}

pub struct House {
    /// In reading order: crates bottom up, in each the specs in the order of its Lib.
    pub files: Vec<File>,
}

/// The file that a module's name stands for, as `rules/specs/Day.antt` for `Rattle.rules.specs.Day`.
pub fn module_file(module: &str) -> Option<String> {
    let (krate, rest) = module.strip_prefix("Rattle.")?.split_once('.')?;
    match rest.strip_prefix("specs.declared.") {
        Some(_) => Some(format!("{krate}/src")),
        None => Some(format!("{krate}/{}.antt", rest.replace('.', "/"))),
    }
}

fn uses_of(text: &str) -> BTreeMap<String, (String, String)> {
    let mut uses = BTreeMap::new();
    for line in text.lines() {
        let Some(rest) = line.strip_prefix("use ") else { continue };
        if let Some((module, names)) = rest.split_once(".{") {
            let Some(file) = module_file(module) else { continue };
            for name in names.trim_end_matches('}').split(',') {
                let (there, here) = name.trim().split_once(" as ").unwrap_or((name.trim(), name.trim()));
                uses.insert(here.to_string(), (file.clone(), there.to_string()));
            }
        } else if let Some((module, alias)) = rest.split_once(" as ") {
            if let Some(file) = module_file(module) {
                uses.insert(alias.trim().to_string(), (file, String::new()));
            }
        }
    }
    uses
}

/// Modifiers and name of a line that begins an item of a spec.
fn begins(line: &str) -> Option<(Kind, String)> {
    let mut kind = Kind::Law;
    let mut words = line.split_whitespace().peekable();
    while let Some(word) = words.next() {
        match word {
            "abbrev" | "unfoldable" | "record" | "data" => kind = Kind::Definition,
            "pub" => {}
            "module" => return Some((Kind::Law, "module".to_string())),
            "use" | "mod" | "unfolding" | "infixr" | "infixl" | "infix" | "where" | "private" => return None,
            name => {
                let own = words.next()?;
                let typed = own.starts_with(':') || own.starts_with('(') || own.starts_with('{');
                return typed.then(|| (kind, name.to_string()));
            }
        }
    }
    None
}

/// A block of lines between blank ones, with the comment that stands right above its code.
fn blocks(text: &str) -> Vec<(usize, Vec<&str>)> {
    let mut all = vec![];
    let mut block: Vec<&str> = vec![];
    let mut first = 1;
    for (i, line) in text.lines().enumerate() {
        if line.trim().is_empty() {
            if !block.is_empty() {
                all.push((first, std::mem::take(&mut block)));
            }
        } else {
            if block.is_empty() {
                first = i + 1;
            }
            block.push(line);
        }
    }
    if !block.is_empty() {
        all.push((first, block));
    }
    all
}

fn comment(lines: &[&str], mark: &str) -> String {
    let said: Vec<&str> =
        lines.iter().take_while(|l| l.starts_with(mark)).map(|l| l[mark.len()..].trim()).collect();
    said.join(" ")
}

/// Whether a line says something: it is no comment, and more than a closing bracket.
fn speaks(line: &&&str) -> bool {
    let line = line.trim();
    !line.starts_with("--") && !line.starts_with("//") && !line.chars().all(|c| "})];,".contains(c))
}

/// The entries `NAME = value;  -- comment` of a block that begins at a line.
fn parts(first: usize, lines: &[&str]) -> Vec<(usize, String, String)> {
    let entry = |(i, line): (usize, &&str)| {
        let (code, says) = line.split_once("  -- ")?;
        let (name, value) = code.trim().trim_end_matches(';').split_once(" = ")?;
        Some((first + i, format!("{name} = {value}"), says.to_string()))
    };
    lines.iter().enumerate().filter_map(entry).collect()
}

fn spec_items(text: &str) -> Vec<Item> {
    let mut items: Vec<Item> = vec![];
    for (first, lines) in blocks(text) {
        let says = comment(&lines, "--");
        let above = lines.iter().take_while(|l| l.starts_with("--")).count();
        let code = &lines[above..];
        // an inner block of a record, a data type or a `where` belongs to the item before it
        let Some((kind, name)) = code.iter().find(|l| !l.starts_with("infix")).and_then(|l| begins(l)) else {
            if let (Some(last), Some(line)) = (items.last_mut(), code.first()) {
                if line.starts_with(' ') {
                    last.lines += lines.iter().filter(speaks).count();
                    last.text.push_str(&format!("\n{}", lines.join("\n")));
                }
            }
            continue;
        };
        if code[0].starts_with(' ') {
            // a member of a nameless module, whose laws stand together, or of a `where`
            if let Some(last) = items.last_mut() {
                last.lines += lines.iter().filter(speaks).count();
                last.text.push_str(&format!("\n{}", lines.join("\n")));
            }
            continue;
        }
        let line = first + above;
        let count = code.iter().filter(speaks).count();
        items.push(Item {
            name,
            kind,
            says,
            line,
            lines: count,
            text: code.join("\n"),
            parts: parts(line, code),
        });
    }
    items
}

/// The structs and enums that a crate's code declares.
fn code_items(text: &str) -> Vec<Item> {
    let lines: Vec<&str> = text.lines().collect();
    let mut items = vec![];
    for (i, line) in lines.iter().enumerate() {
        let rest = line.strip_prefix("pub struct ").or_else(|| line.strip_prefix("pub enum "));
        let Some(rest) = rest else { continue };
        let name: String = rest.chars().take_while(|c| c.is_alphanumeric()).collect();
        let end = (i..lines.len()).find(|&j| lines[j] == "}" || lines[j].ends_with(';')).unwrap_or(i);
        // what it derives stands between it and its comment
        let derives = (0..i).rev().take_while(|&j| lines[j].starts_with("#[")).count();
        let head = i - derives;
        let above = (0..head).rev().take_while(|&j| lines[j].starts_with("//")).count();
        let says = comment(&lines[head - above..head], "//");
        items.push(Item {
            name,
            kind: Kind::Definition,
            says,
            line: i + 1,
            lines: lines[i..=end].iter().filter(speaks).count(),
            text: lines[i..=end].join("\n"),
            parts: vec![],
        });
    }
    items
}

fn listed(folder: &Path, part: &str) -> Vec<String> {
    let mut names: Vec<String> = fs::read_to_string(folder.join(part).join("Lib.antt"))
        .unwrap_or_default()
        .lines()
        .filter_map(|l| l.strip_prefix("pub mod ").map(String::from))
        .collect();
    names.dedup();
    names
}

fn source_files(folder: &Path) -> Vec<String> {
    let mut names: Vec<String> = fs::read_dir(folder.join("src"))
        .map(|all| all.filter_map(|f| f.ok()?.file_name().into_string().ok()).collect())
        .unwrap_or_default();
    names.retain(|name| name.ends_with(".rt"));
    names.sort();
    names
}

pub fn house(crates: &Path, order: &Path) -> House {
    let mut files = vec![];
    let text = fs::read_to_string(order).unwrap_or_default();
    for line in text.lines().filter(|l| !l.starts_with('#')) {
        let Some((name, _)) = line.split_once(':') else { continue };
        let folder = crates.join(name);
        for source in source_files(&folder) {
            let text = fs::read_to_string(folder.join("src").join(&source)).unwrap_or_default();
            let uses = uses_of("");
            files.push(File { path: format!("{name}/src/{source}"), uses, items: code_items(&text) });
        }
        for part in ["specs", "proofs"] {
            for module in listed(&folder, part) {
                let text =
                    fs::read_to_string(folder.join(part).join(format!("{module}.antt"))).unwrap_or_default();
                files.push(File {
                    path: format!("{name}/{part}/{module}.antt"),
                    uses: uses_of(&text),
                    items: spec_items(&text),
                });
            }
        }
    }
    House { files }
}
