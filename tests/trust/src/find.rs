//! What the roots rest on.

use std::collections::BTreeSet;

use crate::read::{File, House, Item, Kind};

/// The names in a text: runs of letters, digits, dashes and primes; a name with a dot is a member of a module, or a field. An operator `▸`
/// has the name `◌▸◌`.
fn names(text: &str) -> Vec<String> {
    let code: Vec<&str> = text.lines().map(|l| l.split(" -- ").next().unwrap_or("")).collect();
    let code =
        code.iter().filter(|l| !l.trim_start().starts_with("--")).cloned().collect::<Vec<&str>>().join("\n");
    let mut all = vec![];
    for token in code.split(|c: char| c.is_whitespace() || "(){};,".contains(c)) {
        let plain = token.chars().all(|c| c.is_alphanumeric() || "-_.'₀₁₂₃₄".contains(c));
        all.push(if plain { token.to_string() } else { format!("◌{token}◌") });
    }
    all.retain(|name| !name.is_empty());
    all
}

fn item<'a>(file: &'a File, name: &str) -> Option<&'a Item> {
    file.items.iter().find(|i| i.name == name)
}

/// The places (file, item) that a name in a file stands for.
fn places(house: &House, file: usize, name: &str) -> Option<(usize, usize)> {
    let at = |path: &str, name: &str| -> Option<(usize, usize)> {
        house.files.iter().enumerate().find_map(|(f, other)| {
            let here = if path.ends_with("/src") {
                other.path.starts_with(&format!("{path}/"))
            } else {
                other.path == path
            };
            let i = other.items.iter().position(|i| i.name == name)?;
            here.then_some((f, i))
        })
    };
    let own = &house.files[file];
    if let Some((head, member)) = name.split_once('.') {
        // a member of a module, or a field of a definition
        return match own.uses.get(head) {
            Some((path, there)) if there.is_empty() => at(path, member),
            _ => places(house, file, head),
        };
    }
    if item(own, name).is_some() {
        return at(&own.path, name);
    }
    let (path, there) = own.uses.get(name)?;
    at(path, there)
}

/// Every definition that the roots rest on, as (file, item).
pub fn reachable(house: &House, roots: &[(&str, &str)]) -> BTreeSet<(usize, usize)> {
    let mut found = BTreeSet::new();
    let mut next = vec![];
    for (path, name) in roots {
        let file = house.files.iter().position(|f| f.path == *path);
        if let Some(place) = file.and_then(|f| places(house, f, name)) {
            next.push(place);
        }
    }
    while let Some((f, i)) = next.pop() {
        let item = &house.files[f].items[i];
        if item.kind == Kind::Law || !found.insert((f, i)) {
            continue;
        }
        for name in names(&item.text) {
            if let Some(place) = places(house, f, &name) {
                next.push(place);
            }
        }
    }
    found
}
