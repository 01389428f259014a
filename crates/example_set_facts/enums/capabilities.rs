use enumset::EnumSetType;

/// What a server can do, by its mask in the server's greeting.
#[derive(EnumSetType, Debug)]
#[enumset(map = "mask", no_ops)]
pub enum Capability {
    Compression = 0x0001,
    Encryption = 0x0002,
    Checksums = 0x0004,
    Pipelining = 0x0010,
    Streaming = 0x0020,
    Transactions = 0x0100,
    Snapshots = 0x0200,
    Replication = 0x0400,
    Failover = 0x1000,
}
