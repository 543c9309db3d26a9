//! Checks a proof, and audits an entry whose demonstration seal it verifies.
//!
//! Anyone who can verify the seal can forge it. For a provider verify Ed25519 signatures, with a crate of your own choice.

mod seal;

use coniks::{check, Auditor, Error, ENTRY_BYTES};
use seal::is_sealed;

fn bytes(text: &str) -> Vec<u8> {
    (0..text.len() / 2).map(|i| u8::from_str_radix(&text[2 * i..2 * i + 2], 16).expect("two digits")).collect()
}

fn main() -> Result<(), Error> {
    let words: Vec<String> = std::env::args().skip(1).collect();
    let [key, nonce, root, index, name, proof, entry] = words.as_slice() else {
        eprintln!("example KEY NONCE ROOT INDEX NAME PROOF ENTRY");
        std::process::exit(2);
    };
    let [key, nonce, root, index] = [key, nonce, root, index].map(|it| bytes(it).try_into().expect("32 bytes"));
    let (proof, entry) = (bytes(proof), bytes(entry));
    match check(&nonce, &root, &index, name.as_bytes(), &proof)? {
        Some(key) => println!("{}", String::from_utf8_lossy(key)),
        None => println!("absent"),
    }
    println!("{}", check(&root, &root, &index, name.as_bytes(), &proof).unwrap_err());
    let mut auditor = Auditor::new();
    let before = auditor.clone();
    let mut forged = entry.clone();
    forged[ENTRY_BYTES - 1] ^= 1;
    println!("{}", auditor.feed(&forged, is_sealed(&key, &forged)).unwrap_err());
    println!("as it was: {}", auditor == before && auditor.head().is_none());
    auditor.feed(&entry, is_sealed(&key, &entry))?;
    println!("epoch {}", auditor.head().map_or(0, |head| head.epoch));
    Ok(())
}
