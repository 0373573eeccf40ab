//! Makes blocks of IPFS from the files in a folder, by Debian's crate `ipfs-unixfs`, with a given number of bytes in a
//! chunk and of links in a node. It prints `<CID> <block>` in hexadecimal for each block, the root's last.

use cid::Cid;
use ipfs_unixfs::dir::builder::{BufferingTreeBuilder, TreeOptions};
use ipfs_unixfs::file::adder::{BalancedCollector, Chunker, FileAdder};
use std::path::Path;
use std::{env, fs};

fn told(bytes: &[u8]) -> String {
    bytes.iter().map(|byte| format!("{byte:02x}")).collect()
}

fn say(name: &Cid, block: &[u8]) {
    println!("{} {}", told(&name.to_bytes()), told(block));
}

/// The blocks of a file; the name of the last, and the bytes of all of them.
fn add(content: &[u8], chunk: usize, links: usize) -> (Cid, u64) {
    let mut adder = FileAdder::builder()
        .with_chunker(Chunker::Size(chunk))
        .with_collector(BalancedCollector::with_branching_factor(links))
        .build();
    let (mut last, mut total, mut at) = (None, 0, 0);
    let mut keep = |(name, block): (Cid, Vec<u8>)| {
        say(&name, &block);
        total += block.len() as u64;
        last = Some(name);
    };
    while at < content.len() {
        let (blocks, taken) = adder.push(&content[at..]);
        blocks.for_each(&mut keep);
        at += taken;
    }
    adder.finish().for_each(&mut keep);
    (last.expect("a file has a block"), total)
}

fn walk(folder: &Path, name: &str, chunk: usize, links: usize, tree: &mut BufferingTreeBuilder) {
    let mut entries: Vec<_> = fs::read_dir(folder).unwrap().map(|entry| entry.unwrap()).collect();
    entries.sort_by_key(|entry| entry.file_name());
    for entry in entries {
        let path = format!("{name}{}", entry.file_name().to_str().unwrap());
        if entry.file_type().unwrap().is_dir() {
            walk(&entry.path(), &format!("{path}/"), chunk, links, tree);
            continue;
        }
        let (root, total) = add(&fs::read(entry.path()).unwrap(), chunk, links);
        tree.put_link(&path, root, total).unwrap();
    }
}

fn main() {
    let words: Vec<String> = env::args().collect();
    let (chunk, links) = (words[2].parse().unwrap(), words[3].parse().unwrap());
    let mut options = TreeOptions::default();
    options.wrap_with_directory();
    let mut tree = BufferingTreeBuilder::new(options);
    walk(Path::new(&words[1]), "", chunk, links, &mut tree);
    let mut nodes = tree.build();
    while let Some(node) = nodes.next_borrowed() {
        let node = node.unwrap();
        say(node.cid, node.block);
    }
}
