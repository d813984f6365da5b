//! Frames: one call for several messages, beside a call for each of them.
use super::values::{check_forwarded, message, new_values, HIGH};
use super::{give_all_to, node_and_end, nodes};
use crate::network::{Input, Network, Packing, READ};
use crate::rows::Rows;
use crate::side::{is_refusal, Plain, Proved, Side};
use crate::times::Times;

/// How many messages of a stream are kept; its last frame may have some more.
const MESSAGES: usize = 2000;

/// What a node is given from some time on, and its record at that time.
struct Stream {
    start: Vec<u8>,
    frames: Vec<Input>,
    /// The same, each message by itself.
    messages: Vec<Input>,
    /// How many frames and messages there are; the begins among them are not counted.
    frame_count: usize,
    message_count: usize,
}

impl Stream {
    fn new(start: Vec<u8>) -> Stream {
        Stream { start, frames: Vec::new(), messages: Vec::new(), frame_count: 0, message_count: 0 }
    }

    /// One more begin or frame of n nodes.
    fn add(&mut self, n: usize, input: Input) {
        if let Input::Frame { sender, bytes } = &input {
            self.frame_count += 1;
            let (mut rest, mut length, mut route) = (&bytes[..], 0, 0);
            while !rest.is_empty() {
                assert_eq!(Plain::next(n, rest, &mut length, &mut route), 0, "no message in a frame");
                self.messages.push(Input::Message { sender: *sender, bytes: rest[..length].to_vec() });
                self.message_count += 1;
                rest = &rest[length..];
            }
        } else {
            self.messages.push(input.clone());
        }
        self.frames.push(input);
    }
}

/// What node 1 of a network is given once it has had some frames: each has k messages, or as many as it has room for.
fn packed(n: usize, k: usize) -> Stream {
    let mut network = Network::new(n, Plain::most_faults(n), 13, Packing::Full(k));
    let (mut early, mut stream) = (2 * n, None);
    loop {
        network.step(|node, input, record, lent| {
            if node != 1 {
                return input.give::<Plain>(record, lent);
            }
            if early == 0 && stream.is_none() {
                stream = Some(Stream::new(record.to_vec()));
            }
            let code = input.give::<Plain>(record, lent);
            match (&mut stream, input) {
                (Some(stream), _) if !is_refusal(code) => stream.add(n, input.clone()),
                (None, Input::Frame { .. }) => early -= 1,
                _ => (),
            }
            code
        });
        match stream {
            Some(stream) if stream.message_count >= MESSAGES => return stream,
            _ => (),
        }
    }
}

/// Frames of 64 messages: in turn an echo of a new tag, a value with it, and a read.
fn short(n: usize, start: &[u8]) -> Stream {
    let mut stream = Stream::new(start.to_vec());
    let mut tag = HIGH;
    while stream.message_count < MESSAGES {
        let mut bytes = Vec::new();
        for kind in [5, 6, 1].into_iter().cycle().take(64) {
            tag += u64::from(kind == 5);
            bytes.extend(message(n, kind, 2, tag));
        }
        stream.add(n, Input::Frame { sender: 2, bytes });
    }
    stream
}

/// Frames of a hundred reads, the most messages that a frame has room for.
fn reads(n: usize, start: &[u8]) -> Stream {
    let mut stream = Stream::new(start.to_vec());
    while stream.message_count < MESSAGES {
        stream.add(n, Input::Frame { sender: 2, bytes: READ.repeat(100) });
    }
    stream
}

/// Frames of k new values; a frame has room for fifty.
fn values(n: usize, start: &[u8], k: usize) -> Stream {
    let mut stream = Stream::new(start.to_vec());
    for values in new_values(n, MESSAGES, &mut stream.start).chunks(k) {
        stream.add(n, Input::Frame { sender: 2, bytes: values.concat() });
    }
    check_forwarded(&stream.start, &stream.frames);
    stream
}

/// The streams that frames of n nodes are timed on, each with a name.
fn streams(n: usize) -> Vec<(&'static str, Stream)> {
    let mut streams: Vec<_> = [1, 2, 4, 16, 64].map(|k| ("as they come", packed(n, k))).into();
    let start = streams[0].1.start.clone();
    streams.push(("echo, value, read", short(n, &start)));
    streams.push(("reads", reads(n, &start)));
    streams.extend([4, 16, 50].map(|k| ("new values", values(n, &start, k))));
    streams
}

/// Prints nanoseconds per frame as its messages grow, beside a call for each message and beside plain Rust.
pub fn frames(rows: &mut Rows) {
    println!(
        "frames at one node: nanoseconds per frame, and of a call for each of its messages (streams, with begins)"
    );
    println!(
        "{:>6} {:>18} {:>9} {:>9} {:>9} {:>9} {:>8} {:>8} {:>9} {:>8} {:>8}",
        "nodes", "messages", "in each", "proved", "a message", "calls", "ratio", "worst", "plain", "ratio", "worst"
    );
    for n in [3, 16] {
        for (name, stream) in streams(n) {
            let [beside_calls, beside_plain] = time(&stream);
            let each = 1e9 / stream.frame_count as f64;
            let proved = beside_plain.proved() * each;
            let (calls, plain) = (beside_calls.other() * each, beside_plain.other() * each);
            let count = stream.message_count as f64 / stream.frame_count as f64;
            println!(
                "{n:>6} {name:>18} {count:>9.1} {proved:>9.0} {:>9.0} {calls:>9.0} {beside_calls} {plain:>9.0} \
                 {beside_plain}",
                proved / count
            );
            let row = format!("{}, {count:.0} {name}", nodes(n));
            rows.add("frames beside calls", &row, &beside_calls);
            rows.add("frames beside plain ones", &row, &beside_plain);
        }
    }
}

/// The frames beside a proved call for each message, and beside plain Rust.
fn time(stream: &Stream) -> [Times; 2] {
    let Stream { start, frames, messages, .. } = stream;
    let (mut node, end) = node_and_end(start, frames, 8192);
    Times::of_three(
        &mut node,
        |node, _| give_all_to::<Proved>(node, start, frames, &end),
        |node, _| give_all_to::<Proved>(node, start, messages, &end),
        |node, _| give_all_to::<Plain>(node, start, frames, &end),
    )
}
