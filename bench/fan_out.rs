//! A plain program that makes the outs of a message of the broker to 256 clients as `sng` does, and nothing
//! else: of each client a note with its id, the name and the outcome, and a datagram with the message.
//! `fan_out.py` builds it with `rustc -O`, for scale.
use std::time::Instant;

enum Outcome {
    Allowed,
}

enum Out {
    Note(Vec<u8>, Vec<u8>, Outcome),
    Send(u32, u16, Vec<u8>),
}

struct Client {
    id: Vec<u8>,
    address: (u32, u16),
    filters: Vec<Vec<u8>>,
}

fn matches(filter: &[u8], name: &[u8]) -> bool {
    match filter.strip_suffix(b"#") {
        Some(front) => name.starts_with(front),
        None => filter == name,
    }
}

fn frame(payload: &[u8], id: [u8; 2]) -> Vec<u8> {
    let mut datagram = Vec::with_capacity(payload.len() + 7);
    datagram.extend_from_slice(&[payload.len() as u8 + 7, 0x0c, 0x02, id[0], id[1], 0, 0]);
    datagram.extend_from_slice(payload);
    datagram
}

fn deliver(clients: &[Client], name: &[u8], payload: &[u8]) -> Vec<Out> {
    let mut outs = Vec::new();
    for client in clients {
        if client.filters.iter().any(|filter| matches(filter, name)) {
            outs.push(Out::Note(client.id.clone(), name.to_vec(), Outcome::Allowed));
            let (ip, port) = client.address;
            outs.push(Out::Send(ip, port, frame(payload, [name[0], name[1]])));
        }
    }
    outs
}

fn main() {
    let filters = || vec![b"ab".to_vec(), b"site/#".to_vec(), b"site/all/news".to_vec()];
    let clients: Vec<Client> = (0..256)
        .map(|number| Client {
            id: format!("c{number:03}").into_bytes(),
            address: (number, 4000),
            filters: filters(),
        })
        .collect();
    let payload: Vec<u8> = (0..32).collect();
    let (turns, mut made, mut sum) = (20_000, 0usize, 0u64);
    let began = Instant::now();
    for _ in 0..turns {
        let outs = deliver(&clients, b"ab", &payload);
        made += outs.len();
        for out in &outs {
            sum += match out {
                Out::Note(id, name, Outcome::Allowed) => (id.len() + name.len()) as u64,
                Out::Send(ip, port, datagram) => *ip as u64 + *port as u64 + datagram[0] as u64,
            };
        }
    }
    let seconds = began.elapsed().as_secs_f64();
    println!("{:.0} outs a second, plain ({sum})", made as f64 / seconds);
}
