//! Chromium by its debugging protocol, over a plain socket.

use std::fs;
use std::io::{Read, Write};
use std::net::TcpStream;
use std::path::Path;
use std::process::{Child, Command, Stdio};
use std::thread::sleep;
use std::time::Duration;

pub struct Browser {
    chromium: Child,
    socket: TcpStream,
    sent: usize,
    /// What the console has told.
    pub console: Vec<String>,
}

impl Browser {
    /// A browser with its profile in a folder; none where Chromium is not installed.
    pub fn start(folder: &Path) -> Option<Browser> {
        let chromium = Command::new("chromium")
            .args([
                "--headless",
                "--no-sandbox",
                "--disable-gpu",
                "--remote-debugging-port=0",
            ])
            .args(["--window-size=1500,900", "about:blank"])
            .arg(format!("--user-data-dir={}", folder.display()))
            .stdout(Stdio::null())
            .stderr(Stdio::null())
            .spawn()
            .ok()?;
        let port = wait(|| {
            let told = fs::read_to_string(folder.join("DevToolsActivePort")).ok()?;
            told.lines().next()?.parse().ok()
        });
        let path = wait(|| page_of(port));
        let mut browser = Browser {
            chromium,
            socket: opened(port, &path),
            sent: 0,
            console: Vec::new(),
        };
        for domain in ["Page", "Runtime", "Log"] {
            browser.call(&format!("{domain}.enable"), "{}");
        }
        Some(browser)
    }

    /// Calls a method and gives its reply.
    pub fn call(&mut self, method: &str, parameters: &str) -> String {
        self.sent += 1;
        let id = self.sent;
        let text = format!(r#"{{"id":{id},"method":"{method}","params":{parameters}}}"#);
        self.send(text.as_bytes());
        loop {
            let message = self.message();
            let tells = [
                "Runtime.exceptionThrown",
                "Runtime.consoleAPICalled",
                "Log.entryAdded",
            ];
            if message.starts_with(&format!(r#"{{"id":{id},"#)) {
                return message;
            }
            if tells
                .iter()
                .any(|x| message.contains(&format!(r#""method":"{x}""#)))
            {
                self.console.push(message);
            }
        }
    }

    /// The text that a script gives.
    #[track_caller]
    pub fn script(&mut self, script: &str) -> String {
        let script = script.replace('\\', "\\\\").replace('"', "\\\"");
        let parameters = format!(r#"{{"expression":"{script}","returnByValue":true}}"#);
        let reply = self.call("Runtime.evaluate", &parameters);
        let value = reply.split_once(r#""value":""#).map(|x| x.1);
        let value = value.and_then(|x| x.split_once("\"}")).map(|x| x.0);
        value.unwrap_or_else(|| panic!("{script}: {reply}")).into()
    }

    /// Opens a page and waits until it is ready.
    pub fn open(&mut self, page: &Path, hash: &str) {
        self.call("Page.navigate", r#"{"url":"about:blank"}"#);
        let address = format!(r#"{{"url":"file://{}#{hash}"}}"#, page.display());
        self.call("Page.navigate", &address);
        let ready = "String(document.documentElement?.dataset.ready !== undefined)";
        wait(|| (self.script(ready) == "true").then_some(()));
    }

    pub fn text(&mut self, element: &str) -> String {
        self.script(&format!(
            "document.querySelector('{element}').innerText.replace(/\\s+/g, ' ')"
        ))
    }

    /// Clicks in the middle of an element.
    pub fn click(&mut self, element: &str) {
        let find = format!("(() => {{ const e = document.querySelector('{element}'); e.scrollIntoView({{block: 'nearest'}}); const r = e.getBoundingClientRect(); return (r.x + r.width / 2) + ',' + (r.y + r.height / 2); }})()");
        self.click_at(&find);
    }

    /// Clicks on the cell of two nodes.
    pub fn cell(&mut self, a: usize, b: usize) {
        let find = format!("(() => {{ const m = document.getElementById('mat').getBoundingClientRect(), n = document.querySelectorAll('.row').length; return (m.x + m.width * ({b} + .5) / n) + ',' + (m.y + m.height * ({a} + .5) / n); }})()");
        self.click_at(&find);
    }

    fn click_at(&mut self, find: &str) {
        let at = self.script(find);
        let (x, y) = at.split_once(',').expect("a place");
        for kind in ["mouseMoved", "mousePressed", "mouseReleased"] {
            let parameters =
                format!(r#"{{"type":"{kind}","x":{x},"y":{y},"button":"left","clickCount":1}}"#);
            self.call("Input.dispatchMouseEvent", &parameters);
        }
    }

    /// Presses a key; those that a browser acts on by itself by their numbers too.
    pub fn key(&mut self, key: &str) {
        let more = match key {
            "Tab" => r#","windowsVirtualKeyCode":9"#,
            "Enter" => r#","windowsVirtualKeyCode":13,"text":"\r""#,
            "ArrowDown" => r#","windowsVirtualKeyCode":40"#,
            _ => "",
        };
        for (kind, more) in [("keyDown", more), ("keyUp", "")] {
            let parameters = format!(r#"{{"type":"{kind}","key":"{key}","code":"{key}"{more}}}"#);
            self.call("Input.dispatchKeyEvent", &parameters);
        }
    }

    pub fn type_text(&mut self, text: &str) {
        self.call("Input.insertText", &format!(r#"{{"text":"{text}"}}"#));
    }

    /// A text in one frame, masked by zeros.
    fn send(&mut self, text: &[u8]) {
        let mut frame = vec![0x81];
        match u16::try_from(text.len()) {
            Ok(length) if length < 126 => frame.push(0x80 | length as u8),
            Ok(length) => {
                frame.push(0x80 | 126);
                frame.extend(length.to_be_bytes());
            }
            Err(_) => panic!("the message is too long"),
        }
        frame.extend([0; 4]);
        frame.extend(text);
        self.socket.write_all(&frame).expect("a message is sent");
    }

    fn message(&mut self) -> String {
        let mut text = Vec::new();
        loop {
            let [first, second] = self.bytes();
            let length = match second & 0x7f {
                126 => u16::from_be_bytes(self.bytes()).into(),
                127 => u64::from_be_bytes(self.bytes()),
                short => short.into(),
            };
            let start = text.len();
            text.resize(start + length as usize, 0);
            self.socket
                .read_exact(&mut text[start..])
                .expect("a message");
            if first & 0x80 != 0 {
                return String::from_utf8(text).expect("a message is text");
            }
        }
    }

    fn bytes<const N: usize>(&mut self) -> [u8; N] {
        let mut bytes = [0; N];
        self.socket.read_exact(&mut bytes).expect("a message");
        bytes
    }
}

impl Drop for Browser {
    fn drop(&mut self) {
        self.chromium.kill().ok();
        self.chromium.wait().ok();
    }
}

/// Tries until there is a value, for at most a minute.
fn wait<T>(mut attempt: impl FnMut() -> Option<T>) -> T {
    for _ in 0..3000 {
        if let Some(value) = attempt() {
            return value;
        }
        sleep(Duration::from_millis(20));
    }
    panic!("Chromium does not come to it");
}

/// The address of the one page.
fn page_of(port: u16) -> Option<String> {
    let mut socket = TcpStream::connect(("127.0.0.1", port)).ok()?;
    write!(
        socket,
        "GET /json HTTP/1.1\r\nHost: 127.0.0.1:{port}\r\nConnection: close\r\n\r\n"
    )
    .ok()?;
    socket.set_read_timeout(Some(Duration::from_secs(1))).ok()?;
    let mut told = Vec::new();
    // the end may be a timeout
    socket.read_to_end(&mut told).ok();
    let told = String::from_utf8_lossy(&told).into_owned();
    let at = told.find("/devtools/page/")?;
    Some(told[at..].split('"').next()?.into())
}

fn opened(port: u16, path: &str) -> TcpStream {
    let mut socket = TcpStream::connect(("127.0.0.1", port)).expect("Chromium listens");
    let key = "AAAAAAAAAAAAAAAAAAAAAA==";
    let request = format!("GET {path} HTTP/1.1\r\nHost: 127.0.0.1:{port}\r\nUpgrade: websocket\r\nConnection: Upgrade\r\nSec-WebSocket-Key: {key}\r\nSec-WebSocket-Version: 13\r\n\r\n");
    socket.write_all(request.as_bytes()).expect("a request");
    let mut head = Vec::new();
    while !head.ends_with(b"\r\n\r\n") {
        let mut byte = [0];
        socket.read_exact(&mut byte).expect("a reply");
        head.extend(byte);
    }
    socket
}
