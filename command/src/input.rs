//! The bytes of a source, unpacked where it is compressed, in chunks. One thread reads and unpacks, another takes the chunks.

use std::{
    fs::{File, Metadata},
    io::{self, BufReader, Cursor, Read, Write},
    sync::mpsc::{self, Receiver, Sender, SyncSender, TryRecvError},
    thread,
};

use anyhow::{Context, Result, bail};
use flate2::bufread::MultiGzDecoder;
use indicatif::{ProgressBar, ProgressStyle};

use crate::{packing, packing::Ends, source::Source};

/// The bytes of a chunk, and how many may wait: enough that neither thread waits for a short pause of the other.
const CHUNK: usize = 128 << 10;
const CHUNKS: usize = 8;

/// From so many bytes on a file is large enough for a progress bar.
const LARGE: u64 = 64 << 20;

/// What the reading thread says.
enum Message {
    Chunk { buffer: Vec<u8>, count: usize },
    End { is_cut: bool },
    Failed(io::Error),
}

/// A source that is open, and is not read before it is poured: until then its bar can be hidden.
pub struct Input {
    file: File,
    pub metadata: Metadata,
    /// Hidden where there is nothing to show, or no terminal to show it on.
    pub bar: ProgressBar,
}

/// One that takes chunks.
pub trait Sink {
    fn chunk(&mut self, chunk: &[u8]) -> Result<()>;

    /// Nothing is there to be taken, and more may be long in coming.
    fn pause(&mut self) -> Result<()>;
}

impl Input {
    pub fn open(source: &Source) -> Result<Self> {
        let file = source.open()?;
        let metadata = file.metadata()?;
        if metadata.is_dir() {
            bail!("is a folder");
        }
        if source.is_typed() {
            // Where nobody hears it, the reading goes on all the same.
            let _ = writeln!(io::stderr(), "gff3: reading standard input, up to Ctrl-D");
        }
        let bar = progress_bar(if metadata.is_file() { metadata.len() } else { 0 });
        Ok(Input { file, metadata, bar })
    }

    /// Hands all chunks to a sink, and answers whether what marks the end of a bgzip file is missing.
    pub fn pour(self, sink: &mut impl Sink) -> Result<bool> {
        let poured = Chunks::begin(self.bar.wrap_read(self.file)).and_then(|chunks| chunks.pour(sink));
        self.bar.finish_and_clear();
        poured
    }
}

/// A text that is being read.
struct Chunks {
    messages: Receiver<Message>,
    used: Sender<Vec<u8>>,
}

impl Chunks {
    fn begin(raw: impl Read + Send + 'static) -> Result<Self> {
        let (to_taker, messages) = mpsc::sync_channel(CHUNKS);
        let (used, from_taker) = mpsc::channel();
        thread::Builder::new()
            .spawn(move || {
                let last = match read(raw, &to_taker, &from_taker) {
                    Ok(is_cut) => Message::End { is_cut },
                    Err(error) => Message::Failed(error),
                };
                // Where nobody takes messages any more, nobody is to be told.
                let _ = to_taker.send(last);
            })
            .context("no thread can be started")?;
        Ok(Chunks { messages, used })
    }

    fn pour(&self, sink: &mut impl Sink) -> Result<bool> {
        loop {
            match self.next(sink)? {
                Message::Chunk { buffer, count } => {
                    sink.chunk(&buffer[..count])?;
                    // The thread that would use it again may have read all.
                    let _ = self.used.send(buffer);
                }
                Message::End { is_cut } => return Ok(is_cut),
                Message::Failed(error) => return Err(error.into()),
            }
        }
    }

    fn next(&self, sink: &mut impl Sink) -> Result<Message> {
        match self.messages.try_recv() {
            Ok(message) => return Ok(message),
            Err(TryRecvError::Empty) => sink.pause()?,
            Err(TryRecvError::Disconnected) => {}
        }
        self.messages.recv().context("the reading thread has ended early")
    }
}

fn progress_bar(bytes: u64) -> ProgressBar {
    if bytes < LARGE {
        return ProgressBar::hidden();
    }
    let style = ProgressStyle::with_template("{wide_bar} {bytes} of {total_bytes}, {eta} left");
    match style {
        Ok(style) => ProgressBar::new(bytes).with_style(style),
        Err(_) => ProgressBar::new(bytes),
    }
}

/// Reads and unpacks all, and answers whether what marks the end of a bgzip file is missing.
fn read(mut raw: impl Read, out: &SyncSender<Message>, used: &Receiver<Vec<u8>>) -> io::Result<bool> {
    let (first, is_ended) = packing::first_bytes(&mut raw)?;
    let packer = packing::packer(&first);
    let rest = raw.take(if is_ended { 0 } else { u64::MAX });
    let mut whole = Cursor::new(first).chain(rest);
    match packer {
        None => send_all(&mut whole, out, used).map(|()| false),
        Some(packing::GZIP) => {
            let mut ends = Ends::new(whole);
            let mut text = MultiGzDecoder::new(BufReader::with_capacity(CHUNK, &mut ends));
            let sent = send_all(&mut text, out, used);
            sent.map_err(|error| packing::in_words(error, ends.is_ended))?;
            Ok(ends.is_cut())
        }
        Some(other) => Err(io::Error::new(
            io::ErrorKind::Unsupported,
            format!("is compressed by {other}, which is not read here: unpack it first"),
        )),
    }
}

/// Sends a text in chunks, each as soon as it is read.
fn send_all(text: &mut impl Read, out: &SyncSender<Message>, used: &Receiver<Vec<u8>>) -> io::Result<()> {
    loop {
        let mut buffer = used.try_recv().unwrap_or_else(|_| vec![0; CHUNK]);
        let count = match text.read(&mut buffer) {
            Ok(0) => return Ok(()),
            Ok(count) => count,
            Err(error) if error.kind() == io::ErrorKind::Interrupted => continue,
            Err(error) => return Err(error),
        };
        if out.send(Message::Chunk { buffer, count }).is_err() {
            return Ok(());
        }
    }
}
