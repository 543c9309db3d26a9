//! Looks a name up, from what a directory's service sent. Prints the key in hexadecimal digits, or `absent`, or why the reply is
//! refused.
//!
//!     client SIGNING_KEY VRF_KEY POLICY CATCH_UP NAME REPLY [EPOCH]
//!
//! The keys are 64 hexadecimal digits, `-` for a directory without a VRF. POLICY, CATCH_UP and REPLY are files: the policy document,
//! all entries of the chain, and the reply for NAME at EPOCH, by default the latest.

use coniks::client::{Client, Keys, Policy, Settings};
use std::error::Error;
use std::fs::read;
use std::process::ExitCode;

fn key(digits: &str) -> Result<Vec<u8>, Box<dyn Error>> {
    let pairs: Option<Vec<&str>> = (0..digits.len()).step_by(2).map(|at| digits.get(at..at + 2)).collect();
    let pairs = pairs.ok_or("a key has 64 hexadecimal digits")?;
    Ok(pairs.iter().map(|it| u8::from_str_radix(it, 16)).collect::<Result<_, _>>()?)
}

fn look_up(words: &[String], epoch: Option<u64>) -> Result<String, Box<dyn Error>> {
    let [signing_key, vrf_key, policy, catch_up, name, reply] = words else {
        return Err("client SIGNING_KEY VRF_KEY POLICY CATCH_UP NAME REPLY [EPOCH]".into());
    };
    let vrf_key = if vrf_key == "-" { None } else { Some(key(vrf_key)?) };
    let keys = Keys::new(&key(signing_key)?, vrf_key.as_deref())?;
    let mut client = Client::new(keys, Policy::read(&read(policy)?)?, Settings::default())?;
    client.feed_catch_up(&read(catch_up)?)?;
    let found = client.lookup(name, &read(reply)?, epoch)?;
    Ok(found.key.map_or("absent".into(), |key| key.iter().map(|it| format!("{it:02x}")).collect()))
}

fn main() -> ExitCode {
    let mut words: Vec<String> = std::env::args().skip(1).collect();
    let epoch = if words.len() == 7 { words.pop().map(|it| it.parse()) } else { None };
    let printed = epoch.transpose().map_err(Into::into).and_then(|epoch| look_up(&words, epoch));
    match printed {
        Ok(key) => println!("{key}"),
        Err(error) => {
            eprintln!("{error}");
            return ExitCode::FAILURE;
        }
    }
    ExitCode::SUCCESS
}
