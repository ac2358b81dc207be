//! `crates.txt`: each crate with the crates that its files name, under headings `## NAME`, from the lowest layer up.

/// Libraries of the kit, which are no crates of the repository.
const KIT: [&str; 3] = ["bytes", "check", "io"];

pub struct Listed {
    pub name: String,
    /// The number of its heading; crates before the first one are under heading 0, too.
    pub group: usize,
    pub needs: Vec<String>,
}

pub struct Listing {
    pub groups: Vec<String>,
    pub crates: Vec<Listed>,
}

impl Listing {
    /// The place of a crate of the repository.
    pub fn find(&self, name: &str) -> Option<usize> {
        self.crates.iter().position(|listed| listed.name == name)
    }

    /// A crate of the repository, or a library of the kit.
    pub fn knows(&self, name: &str) -> bool {
        self.find(name).is_some() || KIT.contains(&name)
    }

    /// The crates of the repository that one needs, by their places.
    pub fn below(&self, at: usize) -> Vec<usize> {
        self.crates[at].needs.iter().filter_map(|name| self.find(name)).collect()
    }
}

/// A crate stands behind those that it needs: so there is no cycle.
pub fn parse(text: &str) -> Result<Listing, String> {
    let mut listing = Listing { groups: vec![], crates: vec![] };
    for (at, line) in text.lines().enumerate() {
        let told = |what: String| format!("crates.txt, line {}: {what}", at + 1);
        if let Some(group) = line.strip_prefix("## ") {
            listing.groups.push(group.trim().into());
            continue;
        }
        let line = line.split('#').next().unwrap_or("").trim();
        if line.is_empty() {
            continue;
        }
        let (name, needs) = line.split_once(':').ok_or_else(|| told("NAME: DEP DEP ..".into()))?;
        let name = name.split_whitespace().next().unwrap_or(""); // `staticlib` may stand behind it
        let needs: Vec<String> = needs.split_whitespace().map(str::to_owned).collect();
        if listing.knows(name) {
            return Err(told(format!("{name} stands there already")));
        }
        if let Some(unknown) = needs.iter().find(|need| !listing.knows(need)) {
            return Err(told(format!("{name} needs {unknown}, which is no crate above it")));
        }
        let group = listing.groups.len().saturating_sub(1);
        listing.crates.push(Listed { name: name.into(), group, needs });
    }
    if listing.groups.is_empty() {
        listing.groups.push("crates".into());
    }
    Ok(listing)
}
