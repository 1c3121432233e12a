//! Wrapper: libadb's file, byte for byte, and a child module that builds
//! the struct directly, past the clamps of the `with_` methods.

include!("config.seed.rs");

pub(crate) mod probe {
    use super::ConnectionConfig;

    pub(crate) fn build(
        max_channels: usize,
        max_payload: u32,
        max_rx_per_channel: usize,
        initial_ack_bytes: u32,
    ) -> ConnectionConfig {
        ConnectionConfig {
            max_payload,
            initial_ack_bytes,
            max_rx_per_channel,
            max_channels,
            max_banner_properties: ConnectionConfig::DEFAULT_MAX_BANNER_PROPERTIES,
        }
    }

    pub(crate) fn ceiling(config: &ConnectionConfig) -> usize {
        config.rx_ceiling()
    }
}
