//! Finds the five sources outside the repository, checks that they are the
//! text that `sources.sha256` lists, and writes the module items that name
//! them, since `#[path]` takes a literal only.

use std::env;
use std::fs;
use std::path::{Path, PathBuf};

const LIST: &str = "sources.sha256";
/// Set to 1, it lets sources pass that are not the listed text.
const MUTANT: &str = "ORACLE_MUTANT";
const BESIDE_THE_CHECKOUT: &str = "../../shared/docs/src";

fn main() {
    println!("cargo::rerun-if-env-changed=DOCS_SRC");
    println!("cargo::rerun-if-env-changed={MUTANT}");
    println!("cargo::rerun-if-changed={LIST}");
    // The mutex has `cfg_attr(not(test), rustc_diagnostic_item = ..)`, an
    // attribute that only the standard library's own build may use.
    println!("cargo::rustc-cfg=test");

    let folder = sources_folder();
    let list = fs::read_to_string(LIST).expect("sources.sha256 stands beside build.rs");
    let items: Result<String, String> =
        list.lines().map(|line| module_item(&folder, line)).collect();
    match items {
        Ok(items) => {
            let out = PathBuf::from(env::var_os("OUT_DIR").expect("cargo sets OUT_DIR"));
            fs::write(out.join("sources.rs"), items).expect("OUT_DIR can be written to");
        }
        Err(what) => println!("cargo::error={what}"),
    }
}

fn sources_folder() -> PathBuf {
    let manifest = env::var_os("CARGO_MANIFEST_DIR").expect("cargo sets CARGO_MANIFEST_DIR");
    let named = env::var_os("DOCS_SRC").unwrap_or_else(|| BESIDE_THE_CHECKOUT.into());
    Path::new(&manifest).join(named)
}

/// The item for one line of the list, once the file is there and is the text
/// listed. The module has the name of the folder that its `futex.rs` is in.
fn module_item(folder: &Path, line: &str) -> Result<String, String> {
    let (listed, path) = line
        .split_once("  ")
        .ok_or_else(|| format!("{LIST}: {line:?} is no line of sha256sum's format"))?;
    let file = folder.join(path);
    println!("cargo::rerun-if-changed={}", file.display());
    let text = fs::read(&file).map_err(|error| {
        format!(
            "cannot read {} ({error}). The sources are not part of this repository: set DOCS_SRC \
             to the folder in which {path} is found, or put that folder at {BESIDE_THE_CHECKOUT}, \
             seen from oracle/.",
            file.display()
        )
    })?;
    let found = sha256(&text);
    if found != listed && env::var_os(MUTANT).is_none_or(|value| value != "1") {
        return Err(format!(
            "{} is not the text that the oracle stands for: its sha256 is {found}, oracle/{LIST} \
             has {listed}. Put the listed file back; where a new one is meant, put its hash into \
             the list and make the table again.",
            file.display()
        ));
    }
    if found != listed {
        // The programs say so too: what they tell is no longer about the listed text.
        println!("cargo::warning={path} is not the text in {LIST}; {MUTANT}=1 lets it pass");
        println!("cargo::rustc-env=ORACLE_MUTATED={path}");
    }
    let module = Path::new(path).parent().and_then(Path::file_name).and_then(|name| name.to_str());
    let module = module.ok_or_else(|| format!("{LIST}: {path} is in no folder"))?;
    Ok(format!("#[path = {:?}]\npub mod {module};\n", file.display().to_string()))
}

#[rustfmt::skip]
const ROUND: [u32; 64] = [
    0x428a2f98, 0x71374491, 0xb5c0fbcf, 0xe9b5dba5, 0x3956c25b, 0x59f111f1, 0x923f82a4, 0xab1c5ed5,
    0xd807aa98, 0x12835b01, 0x243185be, 0x550c7dc3, 0x72be5d74, 0x80deb1fe, 0x9bdc06a7, 0xc19bf174,
    0xe49b69c1, 0xefbe4786, 0x0fc19dc6, 0x240ca1cc, 0x2de92c6f, 0x4a7484aa, 0x5cb0a9dc, 0x76f988da,
    0x983e5152, 0xa831c66d, 0xb00327c8, 0xbf597fc7, 0xc6e00bf3, 0xd5a79147, 0x06ca6351, 0x14292967,
    0x27b70a85, 0x2e1b2138, 0x4d2c6dfc, 0x53380d13, 0x650a7354, 0x766a0abb, 0x81c2c92e, 0x92722c85,
    0xa2bfe8a1, 0xa81a664b, 0xc24b8b70, 0xc76c51a3, 0xd192e819, 0xd6990624, 0xf40e3585, 0x106aa070,
    0x19a4c116, 0x1e376c08, 0x2748774c, 0x34b0bcb5, 0x391c0cb3, 0x4ed8aa4a, 0x5b9cca4f, 0x682e6ff3,
    0x748f82ee, 0x78a5636f, 0x84c87814, 0x8cc70208, 0x90befffa, 0xa4506ceb, 0xbef9a3f7, 0xc67178f2,
];

/// SHA-256 as in FIPS 180-4, in lower-case hex as sha256sum prints it.
fn sha256(text: &[u8]) -> String {
    let mut message = text.to_vec();
    message.push(0x80);
    message.resize(message.len().next_multiple_of(64), 0);
    if text.len() % 64 > 55 {
        message.resize(message.len() + 64, 0);
    }
    let length_at = message.len() - 8;
    message[length_at..].copy_from_slice(&(text.len() as u64 * 8).to_be_bytes());

    #[rustfmt::skip]
    let mut hash: [u32; 8] = [
        0x6a09e667, 0xbb67ae85, 0x3c6ef372, 0xa54ff53a, 0x510e527f, 0x9b05688c, 0x1f83d9ab, 0x5be0cd19,
    ];
    for block in message.chunks_exact(64) {
        compress(&mut hash, &schedule(block));
    }
    hash.iter().map(|word| format!("{word:08x}")).collect()
}

fn schedule(block: &[u8]) -> [u32; 64] {
    let mut words = [0; 64];
    for (word, bytes) in words.iter_mut().zip(block.chunks_exact(4)) {
        *word = u32::from_be_bytes([bytes[0], bytes[1], bytes[2], bytes[3]]);
    }
    for i in 16..64 {
        let (near, far): (u32, u32) = (words[i - 2], words[i - 15]);
        let small_0 = far.rotate_right(7) ^ far.rotate_right(18) ^ (far >> 3);
        let small_1 = near.rotate_right(17) ^ near.rotate_right(19) ^ (near >> 10);
        words[i] =
            small_0.wrapping_add(words[i - 16]).wrapping_add(small_1).wrapping_add(words[i - 7]);
    }
    words
}

fn compress(hash: &mut [u32; 8], words: &[u32; 64]) {
    let [mut a, mut b, mut c, mut d, mut e, mut f, mut g, mut h] = *hash;
    for (word, round) in words.iter().zip(ROUND) {
        let big_1 = e.rotate_right(6) ^ e.rotate_right(11) ^ e.rotate_right(25);
        let choice = (e & f) ^ (!e & g);
        let first =
            h.wrapping_add(big_1).wrapping_add(choice).wrapping_add(round).wrapping_add(*word);
        let big_0 = a.rotate_right(2) ^ a.rotate_right(13) ^ a.rotate_right(22);
        let majority = (a & b) ^ (a & c) ^ (b & c);
        let second = big_0.wrapping_add(majority);
        (h, g, f, e) = (g, f, e, d.wrapping_add(first));
        (d, c, b, a) = (c, b, a, first.wrapping_add(second));
    }
    for (sum, word) in hash.iter_mut().zip([a, b, c, d, e, f, g, h]) {
        *sum = sum.wrapping_add(word);
    }
}
