//! The turns of a wormhole network in plain Rust: what the proved crates do, written apart from them and without a
//! contract, to compare speed and deliveries with (Dally and Towles, chapters 8, 13, 16, 18 and 19). It is written for
//! speed: sets of channels are words of bits, a node with nothing to do is gone past, buffers and links are rings in
//! one array. It reads a network text of the first format and a traffic text of `send` lines alone, neither with a
//! fault, takes turns until all has arrived, prints turns and speed, and writes to the third file named a line for
//! each flit delivered: node, source, class, packet, word.

use std::collections::HashMap;
use std::io::{self, BufWriter, Write};
use std::time::Instant;
use std::{env, fs};

#[derive(Clone, Copy, Default)]
struct Flit {
    word: u32,
    packet: u16,
    src: u8,
    dst: u8,
    class: u8,
    vc: u8,
    opens: bool,
    closes: bool,
}

/// A queue of at most as many items as its slice of an array holds.
#[derive(Clone, Copy, Default)]
struct Ring {
    start: u8,
    count: u8,
}

impl Ring {
    fn push<T: Copy>(&mut self, slots: &mut [T], item: T) {
        let end = self.start as usize + self.count as usize;
        slots[if end < slots.len() { end } else { end - slots.len() }] = item;
        self.count += 1;
    }

    fn pop<T: Copy>(&mut self, slots: &[T]) -> T {
        let item = slots[self.start as usize];
        let next = self.start + 1;
        self.start = if (next as usize) < slots.len() { next } else { 0 };
        self.count -= 1;
        item
    }
}

/// The bits of a set, rising.
struct Bits(u64);

impl Iterator for Bits {
    type Item = usize;

    fn next(&mut self) -> Option<usize> {
        if self.0 == 0 {
            return None;
        }
        let bit = self.0.trailing_zeros() as usize;
        self.0 &= self.0 - 1;
        Some(bit)
    }
}

/// An input channel: its buffer, the output channel that it waits for or holds, and the credits that it owes.
#[derive(Clone, Copy, Default)]
struct Input {
    buffer: Ring,
    out: u8,
    owed: u8,
}

/// An output channel: the input channel that holds it, and its credits.
#[derive(Clone, Copy, Default)]
struct Output {
    holder: u8,
    credits: u8,
}

/// The first of these lines at the pointer or after it, cyclically.
fn first_from(lines: u64, pointer: u8) -> u8 {
    let ahead = lines >> pointer;
    if ahead != 0 {
        pointer + ahead.trailing_zeros() as u8
    } else {
        lines.trailing_zeros() as u8
    }
}

/// The flits of a class at their source, and how many of them were fed.
#[derive(Default)]
struct Queue {
    flits: Vec<Flit>,
    fed: usize,
}

/// Sets of channels have bit `8 * port + channel`.
struct Node {
    occupied: u64,
    waiting: u64,
    active: u64,
    ready: u64,
    owing: u64,
    /// The output channels that no input channel holds.
    free: u64,
    /// The output channels that someone waits for.
    asked: u64,
    /// The ports at which a flit comes in, and those at which a credit does.
    flits_in: u8,
    credits_in: u8,
    /// The classes with a flit that was not fed.
    backlog: u8,
    /// Nothing can be done until something comes in.
    asleep: bool,
    inputs: [Input; 56],
    outputs: [Output; 56],
    /// For each output channel the input channels that wait for it, and its arbiter's pointer.
    askers: [u64; 56],
    channel_pointers: [u8; 56],
    input_pointers: [u8; 7],
    output_pointers: [u8; 7],
    queues: Vec<Queue>,
    delivered: Vec<Flit>,
}

#[derive(Clone, Copy, Default)]
struct Link {
    flits: Ring,
    credits: Ring,
}

/// The links of a node by port, and the nodes beyond them.
#[derive(Clone, Copy, Default)]
struct Ports {
    out: [u16; 6],
    into: [u16; 6],
    beyond: [u8; 6],
}

/// A network in which each class owns one channel, that of its number.
struct Network {
    radix: usize,
    dims: usize,
    depth: usize,
    classes: usize,
    nodes: Vec<Node>,
    buffers: Vec<Flit>,
    links: Vec<Link>,
    link_flits: Vec<Flit>,
    link_credits: Vec<u8>,
    ports: Vec<Ports>,
    places: Vec<[u8; 3]>,
    delivered: usize,
}

fn neighbour(radix: usize, dims: usize, node: usize, port: usize) -> Option<usize> {
    let stride = radix.pow(port as u32 / 2);
    let digit = node / stride % radix;
    match port % 2 {
        _ if port >= 2 * dims => None,
        0 => (digit > 0).then(|| node - stride),
        _ => (digit + 1 < radix).then(|| node + stride),
    }
}

impl Network {
    fn new(radix: usize, dims: usize, depth: u8, classes: usize) -> Network {
        let count = radix.pow(dims as u32);
        let depth = depth as usize;
        let (mut ports, mut links) = (vec![Ports::default(); count], 0);
        for node in 0..count {
            for port in 0..2 * dims {
                if let Some(to) = neighbour(radix, dims, node, port) {
                    ports[node].out[port] = links;
                    ports[node].beyond[port] = to as u8;
                    ports[to].into[port ^ 1] = links;
                    links += 1;
                }
            }
        }
        let digit = |node: usize, d: usize| (node / radix.pow(d as u32) % radix) as u8;
        Network {
            radix,
            dims,
            depth,
            classes,
            nodes: (0..count).map(|_| Node::new(2 * dims + 1, classes, depth as u8)).collect(),
            buffers: vec![Flit::default(); count * 56 * depth],
            links: vec![Link::default(); links as usize],
            link_flits: vec![Flit::default(); links as usize * classes * depth],
            link_credits: vec![0; links as usize * classes * depth],
            ports,
            places: (0..count).map(|node| [digit(node, 0), digit(node, 1), digit(node, 2)]).collect(),
            delivered: 0,
        }
    }

    fn terminal(&self) -> usize {
        2 * self.dims
    }

    /// Dimension-order routing.
    fn next_port(&self, node: usize, dst: usize) -> usize {
        let (here, there) = (&self.places[node], &self.places[dst]);
        for d in 0..self.dims {
            if here[d] != there[d] {
                return 2 * d + usize::from(here[d] < there[d]);
            }
        }
        self.terminal()
    }

    fn turn(&mut self) {
        for node in 0..self.nodes.len() {
            let here = &self.nodes[node];
            if here.asleep && here.flits_in == 0 && here.credits_in == 0 {
                continue;
            }
            self.take_credits(node);
            self.take_flits(node);
            self.feed(node);
            self.route(node);
            let (terminal, depth) = (self.terminal(), self.depth);
            self.nodes[node].allocate(self.classes, terminal, depth);
            self.send(node);
            self.give(node);
            self.rest(node);
        }
    }

    fn take_credits(&mut self, node: usize) {
        let (room, terminal) = (self.classes * self.depth, self.terminal());
        let here = &mut self.nodes[node];
        for port in Bits(here.credits_in.into()) {
            let number = self.ports[node].out[port] as usize;
            let link = &mut self.links[number];
            let vc = link.credits.pop(&self.link_credits[number * room..][..room]) as usize;
            if link.credits.count == 0 {
                here.credits_in &= !(1 << port);
            }
            let place = 8 * port + vc;
            here.outputs[place].credits += 1;
            if here.free >> place & 1 == 0 {
                here.look(here.outputs[place].holder as usize, terminal, self.depth);
            }
        }
    }

    fn take_flits(&mut self, node: usize) {
        let room = self.classes * self.depth;
        let terminal = self.terminal();
        let here = &mut self.nodes[node];
        for port in Bits(here.flits_in.into()) {
            let number = self.ports[node].into[port] as usize;
            let link = &mut self.links[number];
            let flit = link.flits.pop(&self.link_flits[number * room..][..room]);
            if link.flits.count == 0 {
                here.flits_in &= !(1 << port);
            }
            let place = 8 * port + flit.vc as usize;
            let slots = &mut self.buffers[(node * 56 + place) * self.depth..][..self.depth];
            here.put(place, slots, flit, terminal, self.depth);
        }
    }

    fn feed(&mut self, node: usize) {
        let terminal = self.terminal();
        let here = &mut self.nodes[node];
        for class in Bits(here.backlog.into()) {
            let place = 8 * terminal + class;
            if here.inputs[place].buffer.count as usize == self.depth {
                continue;
            }
            let queue = &mut here.queues[class];
            let flit = queue.flits[queue.fed];
            queue.fed += 1;
            if queue.fed == queue.flits.len() {
                here.backlog &= !(1 << class);
            }
            let slots = &mut self.buffers[(node * 56 + place) * self.depth..][..self.depth];
            here.put(place, slots, flit, terminal, self.depth);
        }
    }

    fn route(&mut self, node: usize) {
        let here = &self.nodes[node];
        for place in Bits(here.occupied & !here.waiting & !here.active) {
            let input = &self.nodes[node].inputs[place];
            let flit = self.buffers[(node * 56 + place) * self.depth + input.buffer.start as usize];
            if flit.opens {
                let out = 8 * self.next_port(node, flit.dst as usize) + flit.class as usize;
                self.nodes[node].wait(place, out);
            }
        }
    }

    /// One pass of the switch allocator, and the flits that it lets out.
    fn send(&mut self, node: usize) {
        let ready = self.nodes[node].ready;
        if ready == 0 {
            return;
        }
        let here = &mut self.nodes[node];
        let mut named = [0u8; 7];
        let mut asking = [0u8; 7];
        let mut outs = 0u8;
        let mut left = ready;
        while left != 0 {
            let port = left.trailing_zeros() as usize / 8;
            let lines = ready >> (8 * port) & 0xff;
            left &= !(0xff << (8 * port));
            let vc = first_from(lines, here.input_pointers[port]);
            let out = here.inputs[8 * port + vc as usize].out / 8;
            named[port] = vc;
            asking[out as usize] |= 1 << port;
            outs |= 1 << out;
        }
        let mut granted = 0u8;
        for out in Bits(outs.into()) {
            let port = first_from(asking[out] as u64, here.output_pointers[out]);
            here.output_pointers[out] = if (port as usize) < 2 * self.dims { port + 1 } else { 0 };
            granted |= 1 << port;
        }
        for port in Bits(granted.into()) {
            let vc = named[port];
            self.nodes[node].input_pointers[port] = if (vc as usize) + 1 < self.classes { vc + 1 } else { 0 };
            self.let_out(node, 8 * port + vc as usize);
        }
    }

    fn let_out(&mut self, node: usize, place: usize) {
        let terminal = self.terminal();
        let here = &mut self.nodes[node];
        let out = here.inputs[place].out as usize;
        let slots = &self.buffers[(node * 56 + place) * self.depth..][..self.depth];
        let flit = here.inputs[place].buffer.pop(slots);
        if here.inputs[place].buffer.count == 0 {
            here.occupied &= !(1 << place);
        }
        if place / 8 != terminal {
            here.inputs[place].owed += 1;
            here.owing |= 1 << place;
        }
        if flit.closes {
            here.active &= !(1 << place);
            here.free |= 1 << out;
        }
        if out / 8 == terminal {
            here.delivered.push(flit);
            self.delivered += 1;
        } else {
            here.outputs[out].credits -= 1;
            let room = self.classes * self.depth;
            let number = self.ports[node].out[out / 8] as usize;
            let slots = &mut self.link_flits[number * room..][..room];
            self.links[number].flits.push(
                slots,
                Flit {
                    vc: (out % 8) as u8,
                    ..flit
                },
            );
            let beyond = self.ports[node].beyond[out / 8] as usize;
            self.nodes[beyond].flits_in |= 1 << (out / 8 ^ 1);
        }
        self.nodes[node].look(place, terminal, self.depth);
    }

    /// Gives a credit of the lowest channel that owes one to each link into the node.
    fn give(&mut self, node: usize) {
        let terminal = self.terminal();
        let room = self.classes * self.depth;
        let mut left = self.nodes[node].owing;
        while left != 0 {
            let place = left.trailing_zeros() as usize;
            let port = place / 8;
            left &= !(0xff << (8 * port));
            let here = &mut self.nodes[node];
            here.inputs[place].owed -= 1;
            if here.inputs[place].owed == 0 {
                here.owing &= !(1 << place);
            }
            here.look(place, terminal, self.depth);
            let number = self.ports[node].into[port] as usize;
            let slots = &mut self.link_credits[number * room..][..room];
            self.links[number].credits.push(slots, (place % 8) as u8);
            let beyond = self.ports[node].beyond[port] as usize;
            self.nodes[beyond].credits_in |= 1 << (port ^ 1);
        }
    }

    /// Whether the node may be gone past until something comes in.
    fn rest(&mut self, node: usize) {
        let terminal = self.terminal();
        let depth = self.depth;
        let here = &mut self.nodes[node];
        let unrouted = here.occupied & !here.waiting & !here.active;
        let blocked = |class: usize| here.inputs[8 * terminal + class].buffer.count as usize == depth;
        let fed = (0..self.classes).all(|class| here.backlog >> class & 1 == 0 || blocked(class));
        here.asleep = fed && unrouted == 0 && here.ready == 0 && here.owing == 0 && here.asked & here.free == 0;
    }

    fn delivered(&self) -> usize {
        self.delivered
    }
}

impl Node {
    fn new(ports: usize, classes: usize, depth: u8) -> Node {
        let places = (0..ports).fold(0, |set, port| set | ((1 << classes) - 1) << (8 * port));
        Node {
            occupied: 0,
            waiting: 0,
            active: 0,
            ready: 0,
            owing: 0,
            free: places,
            asked: 0,
            flits_in: 0,
            credits_in: 0,
            backlog: 0,
            asleep: false,
            inputs: [Input::default(); 56],
            outputs: [Output { holder: 0, credits: depth }; 56],
            askers: [0; 56],
            channel_pointers: [0; 56],
            input_pointers: [0; 7],
            output_pointers: [0; 7],
            queues: (0..classes).map(|_| Queue::default()).collect(),
            delivered: Vec::new(),
        }
    }

    /// Puts a flit into the buffer of an input channel.
    fn put(&mut self, place: usize, slots: &mut [Flit], flit: Flit, terminal: usize, depth: usize) {
        self.inputs[place].buffer.push(slots, flit);
        self.occupied |= 1 << place;
        self.look(place, terminal, depth);
    }

    /// Whether an input channel may send is looked at again.
    fn look(&mut self, place: usize, terminal: usize, depth: usize) {
        let input = &self.inputs[place];
        let out = input.out as usize;
        let has_flit = (self.occupied & self.active) >> place & 1 == 1;
        let has_credit = out / 8 == terminal || self.outputs[out].credits > 0;
        let may_owe = (input.owed as usize) < depth;
        let bit = u64::from(has_flit && has_credit && may_owe);
        self.ready = self.ready & !(1 << place) | bit << place;
    }

    /// An input channel comes to wait for an output channel.
    fn wait(&mut self, place: usize, out: usize) {
        self.inputs[place].out = out as u8;
        self.waiting |= 1 << place;
        self.askers[out] |= 1 << place;
        self.asked |= 1 << out;
    }

    /// One pass of the channel allocator: a class's packets ask for the channel of its number. Lines are by port, then
    /// channel, so the order of the set's bits is that of the lines.
    fn allocate(&mut self, classes: usize, terminal: usize, depth: usize) {
        for out in Bits(self.asked & self.free) {
            let place = first_from(self.askers[out], self.channel_pointers[out]) as usize;
            let (port, vc) = (place / 8, place % 8);
            let next = if vc + 1 < classes { place + 1 } else { 8 * (port + 1) };
            self.channel_pointers[out] = next as u8;
            self.askers[out] &= !(1 << place);
            if self.askers[out] == 0 {
                self.asked &= !(1 << out);
            }
            self.waiting &= !(1 << place);
            self.active |= 1 << place;
            self.free &= !(1 << out);
            self.outputs[out].holder = place as u8;
            self.look(place, terminal, depth);
        }
    }
}

/// A packet to be offered in a turn.
struct Entry {
    turn: usize,
    src: usize,
    dst: usize,
    class: usize,
    words: Vec<u64>,
}

fn number(word: &str) -> usize {
    word.parse().expect("a number")
}

fn read_network(text: &str) -> (Network, Vec<&str>) {
    let value = |key: &str| text.lines().find_map(|line| line.strip_prefix(key)).map_or(0, number);
    let classes: Vec<&str> = text.lines().filter_map(|line| line.strip_prefix("class ")).collect();
    let depth = value("depth ") as u8;
    (Network::new(value("radix "), value("dims "), depth, classes.len()), classes)
}

fn read_traffic(text: &str, classes: &[&str]) -> Vec<Entry> {
    let entry = |line: &str| {
        let words: Vec<&str> = line.split(' ').collect();
        Entry {
            turn: number(words[0]),
            src: number(words[1]),
            dst: number(words[2]),
            class: classes.iter().position(|name| *name == words[3]).expect("a class"),
            words: words[4..].iter().map(|word| number(word) as u64).collect(),
        }
    };
    text.lines().filter_map(|line| line.strip_prefix("send ")).map(entry).collect()
}

/// Offers the entry's packet to its source.
fn offer(network: &mut Network, packets: &mut HashMap<(usize, usize, usize), u16>, entry: &Entry) {
    let packet = packets.entry((entry.src, entry.dst, entry.class)).or_insert(0);
    for (i, word) in entry.words.iter().enumerate() {
        network.nodes[entry.src].queues[entry.class].flits.push(Flit {
            src: entry.src as u8,
            dst: entry.dst as u8,
            class: entry.class as u8,
            vc: entry.class as u8,
            packet: *packet,
            opens: i == 0,
            closes: i + 1 == entry.words.len(),
            word: *word as u32,
        });
    }
    network.nodes[entry.src].backlog |= 1 << entry.class;
    network.nodes[entry.src].asleep = false;
    *packet += 1;
}

/// Takes turns until all that the entries offer has arrived; how many.
fn run(network: &mut Network, entries: &[Entry]) -> usize {
    let total: usize = entries.iter().map(|entry| entry.words.len()).sum();
    let (mut turn, mut rest, mut packets) = (0, entries, HashMap::new());
    while !rest.is_empty() || network.delivered() < total {
        while let Some((entry, others)) = rest.split_first().filter(|(entry, _)| entry.turn == turn) {
            offer(network, &mut packets, entry);
            rest = others;
        }
        network.turn();
        turn += 1;
    }
    turn
}

/// The links that all flits of the entries cross.
fn flit_hops(network: &Network, entries: &[Entry]) -> usize {
    let digit = |node: usize, d: usize| node / network.radix.pow(d as u32) % network.radix;
    let hops = |entry: &Entry| {
        (0..network.dims)
            .map(|d| digit(entry.src, d).abs_diff(digit(entry.dst, d)))
            .sum::<usize>()
    };
    entries.iter().map(|entry| hops(entry) * entry.words.len()).sum()
}

fn main() -> io::Result<()> {
    let words: Vec<String> = env::args().collect();
    let text = fs::read_to_string(&words[1])?;
    let (mut network, classes) = read_network(&text);
    let entries = read_traffic(&fs::read_to_string(&words[2])?, &classes);
    let start = Instant::now();
    let turns = run(&mut network, &entries);
    let seconds = start.elapsed().as_secs_f64();
    let (node_turns, flit_hops) = (turns * network.nodes.len(), flit_hops(&network, &entries));
    println!(
        "{turns} turns in {:.0} ms: {:.0} node-turns a second, {:.0} flit-hops a second",
        seconds * 1e3,
        node_turns as f64 / seconds,
        flit_hops as f64 / seconds
    );
    let mut out = BufWriter::new(fs::File::create(&words[3])?);
    for (node, here) in network.nodes.iter().enumerate() {
        for flit in &here.delivered {
            writeln!(out, "{node} {} {} {} {}", flit.src, flit.class, flit.packet, flit.word)?;
        }
    }
    out.flush()
}
