use clap::ValueEnum;
use enumset::EnumSetType;

/// Where a connection stands.
#[derive(EnumSetType, Debug, ValueEnum, Default)]
#[enumset(display, no_ops)]
#[clap(rename_all = "kebab-case")]
pub enum State {
    #[default]
    Closed,
    #[value(name = "syn-sent")]
    SynSent,
    Established,
}
