//! The page: file by file, each definition with its line and what it says.

use std::collections::BTreeSet;

use crate::read::{File, House, Kind};

/// Places of definitions, as (file, item).
type Places = BTreeSet<(usize, usize)>;

const HEAD: &str = "# What has to be believed\n\n\
The checker proves that the code meets its contracts and that the promises follow. What it cannot check is that the definitions say what\n\
document 01 means. These are all of them: whatever the promises, the answers of the entry points, the table P1 to P12 and the listing rest on, and\n\
nothing else but the kit's own numbers, lists, texts and tests. Laws are checked, so they are not here. `tests/trust` makes this page from the sources,\n\
and the gate fails if it differs. Lines are those of the definitions, without comments and without lines that only close a bracket.\n\n";

fn cell(text: &str) -> String {
    text.replace('|', "\\|")
}

/// One sentence on the files that hold definitions and laws: of those here, and of all in `specs/`.
fn mixed(house: &House, files: &[&str]) -> String {
    let with = |f: &File| f.items.iter().any(|i| i.kind == Kind::Law);
    let here: Vec<String> = house
        .files
        .iter()
        .filter(|f| files.contains(&f.path.as_str()) && with(f))
        .map(|f| format!("`{}`", f.path))
        .collect();
    let specs = house.files.iter().filter(|f| f.path.contains("/specs/") && with(f)).count();
    match (here.len(), specs) {
        (0, 0) => "No file in `specs/` holds a law; all laws stand in `proofs/`.".to_string(),
        (0, k) => format!("None of the files holds a law; {k} other files in `specs/` do."),
        (_, k) => format!(
            "{} of the files hold laws too: {}; in all {k} files in `specs/` do.",
            here.len(),
            here.join(", ")
        ),
    }
}

pub fn page(house: &House, found: &Places, without: &Places) -> String {
    let mut body = String::new();
    let (mut lines, mut bare, mut files) = (0, 0, vec![]);
    for (f, file) in house.files.iter().enumerate() {
        let here: Vec<_> = file.items.iter().enumerate().filter(|(i, _)| found.contains(&(f, *i))).collect();
        if here.is_empty() {
            continue;
        }
        files.push(file.path.as_str());
        let count: usize = here.iter().map(|(_, item)| item.lines).sum();
        lines += count;
        bare += here
            .iter()
            .filter(|(i, _)| without.contains(&(f, *i)))
            .map(|(_, item)| item.lines)
            .sum::<usize>();
        let note = if file.items.iter().any(|i| i.kind == Kind::Law) { ", and laws" } else { "" };
        body.push_str(&format!(
            "## `{}`, {count} lines{note}\n\n| line | definition | what it says |\n|---|---|---|\n",
            file.path
        ));
        for (_, item) in here {
            body.push_str(&format!("| {} | `{}` | {} |\n", item.line, cell(&item.name), cell(&item.says)));
            for (line, name, says) in &item.parts {
                body.push_str(&format!("| {line} | `{}` | {} |\n", cell(name), cell(says)));
            }
        }
        body.push('\n');
    }
    let total = format!(
        "{lines} lines of definitions in {} files, {bare} without the table P1 to P12 and what it alone rests on. {}\n\n",
        files.len(),
        mixed(house, &files)
    );
    format!("{HEAD}{total}{}\n", body.trim_end())
}
