#!/usr/bin/env bash
# The code of covers without its contracts, for 256 links with 16 modules each. Prints the least processor time of five runs.
set -eu
cd "$(dirname "$0")/../.."
room=$(mktemp -d)
trap 'rm -r "$room"' EXIT
python3 bench/plain/plain.py "$room" checked_fraction module_choice
sed -i 's/pub(crate)/pub/' "$room"/module_choice/*.rs
sed -i 's/List::from_vec(Vec::with_capacity(alloc, steps + 1)?)/List::from_vec(Vec::with_capacity(steps + 1))/' "$room/module_choice/tables.rs"
cat >>"$room/net_core.rs" <<'END'
#[derive(Clone, Copy, Debug, PartialEq, Eq)]
pub struct Module {
    pub capacity: u64,
    pub cost: u64,
}

pub struct Link {
    pub fixed: u64,
    pub setup: u64,
    pub modules: List<Module>,
}

pub type Counts = List<List<u64>>;

pub struct Network {
    links: List<Link>,
}

impl Network {
    pub fn links(&self) -> &List<Link> {
        &self.links
    }
}

pub struct Caps {
    pub scale: u64,
    pub nums: List<u128>,
}

pub trait Copied: Sized {
    fn copy(&self) -> Result<Self, NoMemory>;
}

impl<T: Clone> Copied for List<T> {
    fn copy(&self) -> Result<List<T>, NoMemory> {
        Ok(List { items: self.items.clone() })
    }
}
END
cp bench/covers/main.rs "$room"
rustc -O --edition 2024 -o "$room/covers" "$room/main.rs"
"$room/covers"
