//! Finds the Rust of trouble-host, which is not part of this repository, and names its files to the compiler. Nothing
//! is copied or changed: `#[path]` and `include!` read the files where they are.
use std::path::PathBuf;
use std::{env, fs};

fn main() {
    let root = PathBuf::from(env::var("CARGO_MANIFEST_DIR").unwrap());
    let source = match env::var("TROUBLE_SRC") {
        Ok(folder) => PathBuf::from(folder),
        Err(_) => root.join("../../shared/docs/src/src"),
    };
    let source = source.canonicalize().unwrap_or_else(|e| {
        panic!(
            "no folder {} with the Rust of trouble-host ({e}); TROUBLE_SRC names another",
            source.display()
        )
    });
    println!("cargo::rerun-if-env-changed=TROUBLE_SRC");
    println!("cargo::rerun-if-changed=build.rs");
    let file = |name: &str| {
        let path = source.join(name);
        println!("cargo::rerun-if-changed={}", path.display());
        path
    };

    println!(
        "cargo::rustc-env=CONNECTION_MANAGER={}",
        file("connection_manager.rs").display()
    );

    // config.rs and connection.rs begin with `//!`, which `include!` does not take and `#[path]` does.
    let modules: String = ["config", "connection", "pdu"]
        .iter()
        .map(|name| {
            let path = file(&format!("{name}.rs"));
            format!(
                "#[allow(unused)]\n#[path = {:?}]\npub mod {name};\n",
                path.display().to_string()
            )
        })
        .collect();
    let out = PathBuf::from(env::var("OUT_DIR").unwrap());
    fs::write(out.join("modules.rs"), modules).unwrap();

    // trouble-host's own build script writes this file from features and variables. The event queue is 4, as document
    // 01 says; the rest are the defaults that config.rs documents.
    let settings = [
        ("CONNECTION_EVENT_QUEUE_SIZE", 4),
        ("L2CAP_TX_QUEUE_SIZE", 8),
        ("L2CAP_RX_QUEUE_SIZE", 8),
        ("DEFAULT_PACKET_POOL_SIZE", 16),
        ("DEFAULT_PACKET_POOL_MTU", 251),
        ("GATT_CLIENT_NOTIFICATION_MAX_SUBSCRIBERS", 1),
        ("GATT_CLIENT_NOTIFICATION_QUEUE_SIZE", 1),
        ("GATT_CLIENT_NOTIFICATION_MTU", 512),
        ("CLIENT_ATT_TABLE_SIZE", 64),
        ("PREPARE_WRITE_BUFFER_SIZE", 512),
    ];
    let config: String = settings
        .iter()
        .map(|(name, n)| format!("pub const {name}: usize = {n};\n"))
        .collect();
    fs::write(out.join("config.rs"), config).unwrap();
}
