//! The same list through the Rust binding as use.py has through the Python one: use HOST.., a program that speaks
//! docs/INTEGRATION.md's wire form.
mod guard;

use guard::{Failure, Files, Guard, Reader, READ, WRITE};
use std::cell::Cell;
use std::io::{Read, Write};
use std::process::{Command, Stdio};

fn show<T>(name: &str, given: Result<T, Failure>, words: impl Fn(T) -> String) {
    match given {
        Ok(x) => println!("{}", format!("{name} {}", words(x)).trim_end()),
        Err(Failure::Stopped(reason, request)) => println!("stopped {reason} {}", hex(&request)),
        Err(failure) => println!("{failure}"),
    }
}

fn hex(bytes: &[u8]) -> String { bytes.iter().map(|b| format!("{b:02x}")).collect() }
fn number<T: ToString>(x: T) -> String { x.to_string() }
fn nothing(_: ()) -> String { String::new() }
fn sums(bytes: Vec<u8>) -> String { format!("{} {}", bytes.len(), bytes.iter().map(|b| *b as u64).sum::<u64>()) }
fn listing(bytes: Vec<u8>) -> String { if bytes.is_empty() { "-".to_string() } else { hex(&bytes) } }
fn stat(s: Vec<u8>) -> String { format!("{} {} {}", hex(&s[..5]), s[5], u32::from_le_bytes([s[6], s[7], s[8], s[9]])) }

const TOP: u64 = u64::MAX; // the host's maps go down from there

fn first_life<A: FnMut(&[u8]) -> Vec<u8>>(f: &mut Files<A>) -> (Vec<u8>, [u8; 32]) {
    show("mkdir", f.mkdir("/d", 7), number);
    show("create", f.create("/d/a", 6), number);
    show("open", f.open("/d/a", READ | WRITE), number);
    show("write", f.write(3, &(0..3000).map(|i| (i % 251) as u8).collect::<Vec<u8>>()), number);
    show("seek", f.seek(3, 1000), number);
    show("read", f.read(3, 4000), sums);
    show("truncate", f.truncate(3, 1500), nothing);
    show("stat", f.stat("/d/a"), stat);
    show("listing", f.readdir("/d"), listing);
    show("open", f.open("/none", READ), number);
    show("rename", f.rename("/d", "/e"), nothing);
    show("listing", f.readdir("/e"), listing);
    show("seek", f.seek(3, 1400), number);
    show("read", f.read(3, 4000), sums);
    show("rename", f.rename("/e", "/e/a/b"), nothing);
    show("rename", f.rename("/e", "/e/b"), nothing);
    show("rename", f.rename("/e/a", "/e"), nothing);
    show("rename", f.rename("/e", "/e"), nothing);
    show("rename", f.rename("/e", "/d"), nothing);
    show("rename", f.rename(&format!("/d{}", "/a".repeat(128)), "/e"), nothing);
    show("save", f.guard.save(), |_| String::new());
    show("chmod", f.chmod("/d/a", 4), nothing);
    show("close", f.close(3), nothing);
    show("map", f.map(65536), number);
    show("map", f.map(4096), number);
    show("map", f.map(4097), number);
    show("unmap", f.unmap(TOP - 65535), nothing);
    show("unmap", f.unmap(TOP - 65535), nothing);
    let saved = f.guard.save().unwrap();
    println!("save {}", saved.0.len());
    saved
}

fn second_life<A: FnMut(&[u8]) -> Vec<u8>>(f: &mut Files<A>, lies: &Cell<bool>, image: &[u8], digest: &[u8]) {
    show("load", f.guard.load(image, &[0; 32]), nothing);
    show("load", f.guard.load(image, digest), nothing);
    show("open", f.open("/d/a", READ), number);
    show("read", f.read(3, 4096), sums);
    show("write", f.write(3, b"x"), number);
    show("close", f.close(3), nothing);
    show("remove", f.remove("/d/a"), nothing);
    show("rmdir", f.rmdir("/d"), nothing);
    show("listing", f.readdir("/"), listing);
    show("create", f.create("/b", 7), number);
    show("open", f.open("/b", READ | WRITE), number);
    show("write", f.write(4, b"hello"), number);
    show("seek", f.seek(4, 0), number);
    lies.set(true);
    show("read", f.read(4, 5), sums);
    show("stat", f.stat("/"), stat);
}

/// The host is honest again, and says that its disk is full where a second page is stored, a file is made or grows.
fn full_life<A: FnMut(&[u8]) -> Vec<u8>>(f: &mut Files<A>, full: &Cell<bool>) {
    full.set(true);
    show("mkdir", f.mkdir("/e", 7), number);
    full.set(false);
    show("create", f.create("/e", 7), number);
    show("open", f.open("/e", READ | WRITE), number);
    full.set(true);
    show("write", f.write(2, &(0..3000).map(|i| (i % 251) as u8).collect::<Vec<u8>>()), number);
    show("write", f.write(2, b"on"), number);
    show("truncate", f.truncate(2, 5000), nothing);
    show("seek", f.seek(2, 0), number);
    show("read", f.read(2, 4096), sums);
    show("close", f.close(2), nothing);
}

/// A read-only guard over the files of the full disk; the host is honest up to the last read.
fn looked_at<A: FnMut(&[u8]) -> Vec<u8>>(f: &mut Files<A>, lies: &Cell<bool>, image: &[u8], digest: &[u8]) {
    show("load", f.guard.load(image, digest), nothing);
    show("open", f.open("/e", READ | WRITE), number);
    show("create", f.create("/f", 7), number);
    show("open", f.open("/e", 4), number);
    show("map", f.map(4096), number);
    show("unmap", f.unmap(4096), nothing);
    show("rename", f.rename("/e", "/f"), nothing);
    show("open", f.open("/e", READ), number);
    show("write", f.write(2, b"x"), number);
    show("seek", f.seek(2, 1000), number);
    show("read", f.read(2, 4096), sums);
    show("close", f.close(2), nothing);
    show("stat", f.stat("/e"), stat);
    show("listing", f.readdir("/"), listing);
    show("remove", f.remove("/none"), nothing);
    let saved = f.guard.save().unwrap();
    println!("save {}", if saved.0 == image && saved.1 == digest { "same" } else { "another" });
    show("open", f.open("/e", READ), number);
    lies.set(true);
    show("read", f.read(2, 5), sums);
}

fn main() {
    let words: Vec<String> = std::env::args().collect();
    let mut command = Command::new(&words[1]);
    let mut host = command.args(&words[2..]).stdin(Stdio::piped()).stdout(Stdio::piped()).spawn().unwrap();
    let (mut to, mut from) = (host.stdin.take().unwrap(), host.stdout.take().unwrap());
    let mut frame = |bytes: &[u8]| {
        to.write_all(&[&(bytes.len() as u32).to_le_bytes()[..], bytes].concat()).unwrap();
        let mut head = [0; 4];
        from.read_exact(&mut head).unwrap();
        let mut reply = vec![0; u32::from_le_bytes(head) as usize];
        from.read_exact(&mut reply).unwrap();
        reply
    };
    frame(&[3]);
    let (lies, full) = (Cell::new(false), Cell::new(false));
    let mut restarted = false;
    let ask = |request: &[u8]| {
        if full.get() && !restarted { restarted = true; frame(&[3]); }
        if full.get() && (request[0] == 2 || request[0] == 8 || (request[0] == 7 && request[5] > 0)) {
            return (-28i32).to_le_bytes().to_vec();
        }
        let mut reply = frame(&[&[1], request].concat());
        if lies.get() && (request[0] == 6 || request[0] == 14) { *reply.last_mut().unwrap() ^= 1; }
        reply
    };
    let mut files = Files::new(ask);
    let (image, digest) = first_life(&mut files);
    files.guard = Guard::fresh();
    second_life(&mut files, &lies, &image, &digest);
    files.guard = Guard::fresh();
    show("map", files.map(8192), number); // the host lies on
    files.guard = Guard::fresh();
    lies.set(false);
    full_life(&mut files, &full);
    full.set(false);
    let (image, digest) = files.guard.save().unwrap();
    files.guard = Reader::fresh();
    looked_at(&mut files, &lies, &image, &digest);
    drop(files);
    drop(frame);
    drop(to);
    host.wait().unwrap();
}
