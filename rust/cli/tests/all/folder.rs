//! A folder for one test, and tracks to put into it.

use maker::bundle::record;
use maker::node::{self, Node};
use maker::track::{Chunk, Fill, Track, NON_SYNC};
use std::fs;
use std::path::{Path, PathBuf};

/// Gone when the test is over.
pub struct Folder(pub PathBuf);

impl Folder {
    /// An empty folder; the name is the test's.
    pub fn new(name: &str) -> Folder {
        let path = Path::new(env!("CARGO_TARGET_TMPDIR")).join(name);
        let _ = fs::remove_dir_all(&path);
        fs::create_dir_all(&path).unwrap();
        Folder(path)
    }

    pub fn path(&self, name: &str) -> PathBuf {
        self.0.join(name)
    }

    pub fn put(&self, name: &str, bytes: &[u8]) {
        fs::write(self.path(name), bytes).unwrap();
    }

    /// Writes the tracks of a sample as `NAME-0.mp4` and so on; answers the names.
    pub fn unpack(&self, name: &str) -> Vec<String> {
        let tracks = tracks(&sample(name));
        let names: Vec<String> = (0..tracks.len()).map(|nth| format!("{name}-{nth}.mp4")).collect();
        names.iter().zip(&tracks).for_each(|(name, track)| self.put(name, track));
        names
    }

    pub fn names(&self) -> Vec<String> {
        let name = |entry: fs::DirEntry| entry.file_name().to_string_lossy().into_owned();
        let mut names: Vec<String> =
            fs::read_dir(&self.0).unwrap().map(|entry| name(entry.unwrap())).collect();
        names.sort();
        names
    }
}

impl Drop for Folder {
    fn drop(&mut self) {
        let _ = fs::remove_dir_all(&self.0);
    }
}

pub fn samples() -> PathBuf {
    Path::new(env!("CARGO_MANIFEST_DIR")).join("../../samples")
}

/// A stored bundle.
pub fn sample(name: &str) -> Vec<u8> {
    fs::read(samples().join(format!("{name}.bundle"))).unwrap()
}

/// The tracks of a bundle that is good.
pub fn tracks(bundle: &[u8]) -> Vec<Vec<u8>> {
    let mut tracks = Vec::new();
    let mut rest = bundle;
    while !rest.is_empty() {
        let length = u32::from_be_bytes(rest[2..6].try_into().unwrap()) as usize;
        tracks.push(rest[6..6 + length].to_vec());
        assert!(rest.starts_with(&record(&tracks[tracks.len() - 1])));
        rest = &rest[6 + length..];
    }
    tracks
}

/// Track T of document 01 with so many chunks, each a fragment unless it is changed.
pub fn track_t(chunks: u64, change: impl FnOnce(&mut Track)) -> Vec<u8> {
    node::bytes(&boxes_t(chunks, change))
}

/// Its boxes: `ftyp`, `moov`, then a `moof` and an `mdat` a chunk.
pub fn boxes_t(chunks: u64, change: impl FnOnce(&mut Track)) -> Vec<Node> {
    let mut track = Track::example(chunks);
    change(&mut track);
    track.boxes(&mut Fill::Zeros)
}

/// Makes a chunk continue the fragment before it.
pub fn continues(chunk: &mut Chunk) {
    chunk.runs[0].flags |= 0x4;
    chunk.runs[0].first_sample_flags = NON_SYNC;
}
