//! A store over the proved bus, in a thread of its own: clients in other threads put and get through channels.
use std::sync::mpsc::{channel, Sender};
use std::thread;
use zq::{Bus, BusError, Target};

type Pairs = Result<Vec<(String, Vec<u8>)>, BusError>;

/// What a client asks of the store.
enum Job {
    Put(String, String),
    Get(String, Sender<Pairs>),
}

fn main() -> Result<(), BusError> {
    let mut bus = Bus::new("config 1 10000 north:client local")?;
    let store = bus.storage("demo/**", true)?;
    let (jobs, todo) = channel::<Job>();
    let server = thread::spawn(move || {
        for job in todo {
            match job {
                Job::Put(key, value) => drop(bus.put(store, &key, value.as_bytes())),
                Job::Get(key, to) => drop(to.send(bus.get(&key, Target::All))),
            }
        }
    });
    let clients: Vec<_> = (0..3)
        .map(|n| {
            let jobs = jobs.clone();
            thread::spawn(move || {
                let (to, from) = channel();
                let key = format!("demo/client/{n}");
                jobs.send(Job::Put(key.clone(), format!("hello from {n}"))).expect("the store runs");
                jobs.send(Job::Get(key, to)).expect("the store runs");
                from.recv().expect("the store answers")
            })
        })
        .collect();
    for client in clients {
        for (key, value) in client.join().expect("the client ends")? {
            println!("{key} {}", String::from_utf8_lossy(&value));
        }
    }
    drop(jobs);
    server.join().expect("the store ends");
    Ok(())
}
