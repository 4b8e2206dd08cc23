use varukoni::{check, read_script, steps, Error, Hub};

const OPENING: [&str; 3] = ["agent -", "channel 0", "start 1"];

fn opened() -> Hub {
    let mut hub = Hub::open().unwrap();
    for line in OPENING {
        hub.line(line.as_bytes()).unwrap();
    }
    hub
}

#[test]
fn a_bad_line_is_named_and_the_hub_goes_on() {
    let mut hub = Hub::open().unwrap();
    assert_eq!(hub.line(b"agent -").unwrap(), b"agent 0");
    assert_eq!(hub.line(b"fly"), Err(Error::Bad("UnknownStep".into())));
    assert_eq!(hub.line(b""), Err(Error::Bad("UnknownStep".into())));
    assert_eq!(hub.line(b"post 0 - \xff"), Err(Error::Bad("BadUtf8".into())));
    assert_eq!(hub.said().unwrap(), b"BadUtf8");
    assert_eq!(hub.line(b"channel 0").unwrap(), b"ends 0 1");
    assert_eq!(hub.said().unwrap(), b"ends 0 1");
}

#[test]
fn a_hub_moves_to_another_thread() {
    let mut hub = opened();
    let posting = move || {
        assert_eq!(hub.line(b"post 0 - {\"a\":1}").unwrap(), b"accepted 0:0");
        hub
    };
    let mut hub = std::thread::spawn(posting).join().unwrap();
    assert_eq!(hub.line(b"take 1").unwrap(), b"got 0:0 from 0 {\"a\":1}");
}

#[test]
fn four_threads_have_hubs_of_their_own() {
    let one = || {
        for _ in 0..200 {
            let mut hub = opened();
            for number in 0..50 {
                let accepted = format!("accepted 0:{number}");
                let post = format!("post 0 - {number}");
                assert_eq!(hub.line(post.as_bytes()).unwrap(), accepted.as_bytes());
                let got = format!("got 0:{number} from 0 {number}");
                assert_eq!(hub.line(b"take 1").unwrap(), got.as_bytes());
            }
        }
    };
    let threads: Vec<_> = (0..4).map(|_| std::thread::spawn(one)).collect();
    for thread in threads {
        thread.join().unwrap();
    }
}

#[test]
fn a_line_may_be_longer_than_the_room() {
    let mut hub = opened();
    let body = format!("\"{}\"", "a".repeat(262_142));
    let post = format!("post 0 - {body}");
    assert_eq!(hub.line(post.as_bytes()).unwrap(), b"accepted 0:0");
    let got = format!("got 0:0 from 0 {body}");
    assert_eq!(hub.line(b"take 1").unwrap(), got.as_bytes());
    let over = format!("post 0 - \"{}\"", "a".repeat(262_143));
    assert_eq!(hub.line(over.as_bytes()), Err(Error::Bad("TooLong".into())));
}

#[test]
fn whole_texts_are_answered_as_by_the_program() {
    let printed = steps(b"agent -\nchannel 0\n").unwrap();
    assert_eq!((printed.status, &printed.text[..]), (0, &b"agent 0\nends 0 1\n"[..]));
    let printed = steps(b"agent -\nfly\n").unwrap();
    assert_eq!((printed.status, &printed.text[..]), (2, &b"line 2: UnknownStep\n"[..]));
    assert_eq!(check(b"").unwrap().text, b"clean\n");
    assert_eq!(check(b"hublog 9\n").unwrap().text, b"line 1: BadHeader\n");
    assert_eq!(read_script(b""), Ok(()));
    let bad = read_script(b"fly\n");
    assert!(matches!(bad, Err(Error::Bad(ref text)) if text.starts_with("line 1: ")), "{bad:?}");
}
