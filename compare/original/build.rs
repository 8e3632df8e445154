// Brings the original in, from the folder in ORIGINAL (the one that has walls.rs) or from beside the repository. walls.rs is compiled as it
// stands. Of lib.rs, which leans on files that are not at hand, the grid's types and `from_cells` are cut out as they stand.
use std::path::{Path, PathBuf};
use std::{env, fs};

fn main() {
    println!("cargo:rerun-if-env-changed=ORIGINAL");
    let here = PathBuf::from(env::var_os("CARGO_MANIFEST_DIR").unwrap());
    let folder = match env::var_os("ORIGINAL") {
        Some(folder) => PathBuf::from(folder),
        None => here.join("../../../shared/docs/src/broodmap-analysis/src"),
    };
    let out = PathBuf::from(env::var_os("OUT_DIR").unwrap());
    let walls = read(&folder, "walls.rs");
    fs::write(out.join("walls.rs"), walls).unwrap();
    // The module `search` stands in a file of its own, which nothing here calls.
    fs::write(out.join("search.rs"), "").unwrap();
    let lib = read(&folder, "lib.rs");
    let mut root = String::new();
    for line in lib.lines().filter(|line| line.starts_with("const ")) {
        root += &format!("#[allow(dead_code)]\n{line}\n");
    }
    for item in ["pub struct TerrainCell {", "pub struct TerrainGrid {", "pub enum AnalysisError {", "pub enum Endpoint {", "fn validate_grid_shape("] {
        root += &cut(&lib, item);
    }
    let methods: String = ["    pub fn from_cells(", "    pub fn width(", "    pub fn height(", "    pub fn cells("].iter().map(|method| cut(&lib, method)).collect();
    root += &format!("impl TerrainGrid {{\n{methods}}}\n");
    root += &format!("#[path = {:?}]\npub mod walls;\n", out.join("walls.rs"));
    fs::write(out.join("root.rs"), root).unwrap();
}

fn read(folder: &Path, name: &str) -> String {
    let path = folder.join(name);
    println!("cargo:rerun-if-changed={}", path.display());
    fs::read_to_string(&path).unwrap_or_else(|e| panic!("{}: {e}; name the original's folder in ORIGINAL", path.display()))
}

// The item whose first line begins so, with the attributes above it, to the brace that closes it.
fn cut(text: &str, first: &str) -> String {
    let lines: Vec<&str> = text.lines().collect();
    let mut begin = lines.iter().position(|line| line.starts_with(first)).unwrap_or_else(|| panic!("lib.rs has no `{first}`"));
    let indent = &first[..first.len() - first.trim_start().len()];
    let end = begin + lines[begin..].iter().position(|line| *line == format!("{indent}}}")).expect("an item that is closed");
    while lines[begin - 1].trim_start().starts_with('#') {
        begin -= 1;
    }
    lines[begin..=end].join("\n") + "\n"
}
