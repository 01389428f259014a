use enumset::EnumSetType;

/// A feature of a service, which may be enabled or not.
#[derive(EnumSetType, Debug)]
#[enumset(serialize_repr = "list", serialize_deny_unknown)]
pub enum Feature {
    Accounts,
    Payments,
    Invoices,
    Reports,
    Exports,
    Alerts,
}
