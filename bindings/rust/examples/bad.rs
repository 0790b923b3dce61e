//! Gives a gateway and a bus what they should not be given, and wants the error that is named for it.
use std::sync::{Arc, Mutex};
use std::thread;
use zq::*;

const HEAD: &str = "config 1 10000 north:client local\n";

fn bad_lines() {
    assert_eq!(Gateway::new("config 1 10000").err(), Some(Error::Fault(Fault::BadHead(1))));
    assert_eq!(Gateway::new("config 1 10000 north:client local\npoll 0").err(), Some(Error::Fault(Fault::BadHead(2))));
    assert_eq!(Bus::new("config 1 10000 north:client").err(), Some(BusError::Fault(Fault::NoLocal)));
    let mut gateway = Gateway::new(HEAD).unwrap();
    for line in [b"".as_slice(), b"opn", b"poll 0\n", b"poll 0\npoll 1", b"open local 10 client north \xff"] {
        assert_eq!(gateway.call(line), Err(Fault::BadLine));
    }
    assert_eq!(gateway.sent(3), Err(Error::Refused(Refusal::NotInFlight)));
    assert_eq!(gateway.next_deadline(), None);
}

fn keys() {
    assert_eq!((keys_meet("a/**", "a/b"), key_includes("a/b", "a/**")), (Some(true), Some(false)));
    assert_eq!((keys_meet("a//b", "a"), key_includes("", "a")), (None, None));
}

/// A query from its request to its final, in typed calls.
fn a_query() -> Result<(), Error> {
    let mut gateway = Gateway::new(HEAD)?;
    let (lamp, _) = gateway.open(&Opening::client(Region::Local, 10))?;
    let (ann, _) = gateway.open(&Opening::client(Region::Local, 11))?;
    gateway.queryable(lamp, 1, &"house/lamp".into(), true, 0, 0)?;
    let (request, asked) = gateway.ask(ann, &Ask { payload: b"- on\n", ..Ask::all(7, "house/*") })?;
    assert_eq!((request, asked.len(), gateway.next_deadline()), (0, 1, Some(10_000)));
    let Some(Body::Request { id, wire, payload, .. }) = &asked[0].leaves else { panic!("it is asked") };
    assert_eq!((asked[0].face, wire, payload.as_slice()), (lamp, &Wire::from("house/*"), b"- on\n".as_slice()));
    let (reply, replied) = gateway.reply(lamp, *id, &"house/lamp".into(), b"\xff", None)?;
    assert_eq!((reply, replied[0].reply, replied[0].face), (Some(0), Some(0), ann));
    assert_eq!(gateway.finish(lamp, *id)?, []);
    assert_eq!(gateway.sent(0)?[0].body, Body::Final { id: 7, qos: 0 });
    Ok(())
}

/// Threads share a gateway under a lock: each face and each request has a number of its own.
fn threads() {
    let gateway = Arc::new(Mutex::new(Gateway::new(HEAD).unwrap()));
    let workers: Vec<_> = (0..4u128)
        .map(|zid| {
            let gateway = gateway.clone();
            thread::spawn(move || {
                let face = gateway.lock().unwrap().open(&Opening::client(Region::Local, zid + 10)).unwrap().0;
                (0..1000).map(|id| gateway.lock().unwrap().ask(face, &Ask::all(id, "k")).unwrap().0).collect::<Vec<_>>()
            })
        })
        .collect();
    let mut all: Vec<u64> = workers.into_iter().flat_map(|it| it.join().unwrap()).collect();
    all.sort();
    assert_eq!(all, (0..4000).collect::<Vec<_>>());
}

fn bus() -> Result<(), BusError> {
    let mut bus = Bus::new(HEAD)?;
    let store = bus.storage("demo/**", true)?;
    assert_eq!(bus.put(store, "demo/a", b"1")?, None);
    assert_eq!(bus.put(store, "demo/a", b"")?, Some(b"1".to_vec()));
    assert_eq!(bus.put(store, "other", b"1"), Err(BusError::Refused(BusRefusal::Outside)));
    assert_eq!(bus.put(9, "demo/a", b"1"), Err(BusError::Refused(BusRefusal::UnknownStore)));
    assert_eq!(bus.put(store, "demo//a", b"1"), Err(BusError::Fault(Fault::BadLine)));
    assert_eq!(bus.get("demo/*", Target::All)?, [("demo/a".to_string(), vec![])]);
    assert_eq!(bus.delete(store, "demo/a")?, Some(vec![]));
    Ok(())
}

fn main() {
    bad_lines();
    keys();
    a_query().unwrap();
    threads();
    bus().unwrap();
}
