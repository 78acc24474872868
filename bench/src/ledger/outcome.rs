//! The result of an event.

/// Declares the results, each with its name.
macro_rules! outcomes {
    ($($(#[$about:meta])* $outcome:ident = $name:literal,)*) => {
        /// The result of one event of a batch. The names are those of TigerBeetle's reference.
        #[derive(Clone, Copy, Debug, PartialEq, Eq, Hash)]
        pub enum Outcome {
            $($(#[$about])* $outcome,)*
        }

        impl Outcome {
            /// All results.
            pub const ALL: &'static [Outcome] = &[$(Outcome::$outcome,)*];

            /// The result's name as TigerBeetle's reference spells it.
            pub fn name(self) -> &'static str {
                match self {
                    $(Outcome::$outcome => $name,)*
                }
            }
        }
    };
}

outcomes! {
    /// Another event of the same chain failed.
    LinkedEventFailed = "linked_event_failed",
    /// The last event of the batch is linked to a next one.
    LinkedEventChainOpen = "linked_event_chain_open",
    /// The event carries a timestamp.
    TimestampMustBeZero = "timestamp_must_be_zero",
    /// The event's reserved field isn't 0.
    ReservedField = "reserved_field",
    /// The event has a flag that isn't in use.
    ReservedFlag = "reserved_flag",
    /// The event's id is 0.
    IdMustNotBeZero = "id_must_not_be_zero",
    /// The event's id is `2^128 - 1`.
    IdMustNotBeIntMax = "id_must_not_be_int_max",
    /// The event has flags that exclude each other.
    FlagsAreMutuallyExclusive = "flags_are_mutually_exclusive",
    /// The event's pending debits aren't 0.
    DebitsPendingMustBeZero = "debits_pending_must_be_zero",
    /// The event's posted debits aren't 0.
    DebitsPostedMustBeZero = "debits_posted_must_be_zero",
    /// The event's pending credits aren't 0.
    CreditsPendingMustBeZero = "credits_pending_must_be_zero",
    /// The event's posted credits aren't 0.
    CreditsPostedMustBeZero = "credits_posted_must_be_zero",
    /// The event's ledger is 0.
    LedgerMustNotBeZero = "ledger_must_not_be_zero",
    /// The event's code is 0.
    CodeMustNotBeZero = "code_must_not_be_zero",
    /// The event closes an account and isn't pending.
    ClosingTransferMustBePending = "closing_transfer_must_be_pending",
    /// The debit account's id is 0.
    DebitAccountIdMustNotBeZero = "debit_account_id_must_not_be_zero",
    /// The debit account's id is `2^128 - 1`.
    DebitAccountIdMustNotBeIntMax = "debit_account_id_must_not_be_int_max",
    /// The credit account's id is 0.
    CreditAccountIdMustNotBeZero = "credit_account_id_must_not_be_zero",
    /// The credit account's id is `2^128 - 1`.
    CreditAccountIdMustNotBeIntMax = "credit_account_id_must_not_be_int_max",
    /// The debit account is the credit account.
    AccountsMustBeDifferent = "accounts_must_be_different",
    /// The event names a pending transfer and neither posts nor voids.
    PendingIdMustBeZero = "pending_id_must_be_zero",
    /// The event posts or voids and names no pending transfer.
    PendingIdMustNotBeZero = "pending_id_must_not_be_zero",
    /// The event posts or voids the id `2^128 - 1`.
    PendingIdMustNotBeIntMax = "pending_id_must_not_be_int_max",
    /// The event posts or voids itself.
    PendingIdMustBeDifferent = "pending_id_must_be_different",
    /// The event has a timeout and isn't pending.
    TimeoutReservedForPendingTransfer = "timeout_reserved_for_pending_transfer",
    /// The debit account isn't stored.
    DebitAccountNotFound = "debit_account_not_found",
    /// The credit account isn't stored.
    CreditAccountNotFound = "credit_account_not_found",
    /// The accounts are of two ledgers.
    AccountsMustHaveTheSameLedger = "accounts_must_have_the_same_ledger",
    /// The event's ledger isn't that of the accounts.
    TransferMustHaveTheSameLedgerAsAccounts = "transfer_must_have_the_same_ledger_as_accounts",
    /// The debit account is closed.
    DebitAccountAlreadyClosed = "debit_account_already_closed",
    /// The credit account is closed.
    CreditAccountAlreadyClosed = "credit_account_already_closed",
    /// The pending transfer isn't stored.
    PendingTransferNotFound = "pending_transfer_not_found",
    /// The transfer named isn't a pending one.
    PendingTransferNotPending = "pending_transfer_not_pending",
    /// The pending transfer debits another account.
    PendingTransferHasDifferentDebitAccountId = "pending_transfer_has_different_debit_account_id",
    /// The pending transfer credits another account.
    PendingTransferHasDifferentCreditAccountId = "pending_transfer_has_different_credit_account_id",
    /// The pending transfer is of another ledger.
    PendingTransferHasDifferentLedger = "pending_transfer_has_different_ledger",
    /// The pending transfer has another code.
    PendingTransferHasDifferentCode = "pending_transfer_has_different_code",
    /// The amount is above that of the pending transfer.
    ExceedsPendingTransferAmount = "exceeds_pending_transfer_amount",
    /// A void's amount is below that of the pending transfer.
    PendingTransferHasDifferentAmount = "pending_transfer_has_different_amount",
    /// The pending transfer was posted before.
    PendingTransferAlreadyPosted = "pending_transfer_already_posted",
    /// The pending transfer was voided before.
    PendingTransferAlreadyVoided = "pending_transfer_already_voided",
    /// The pending transfer's time is over.
    PendingTransferExpired = "pending_transfer_expired",
    /// The id is stored with other flags.
    ExistsWithDifferentFlags = "exists_with_different_flags",
    /// The id is stored with another pending transfer.
    ExistsWithDifferentPendingId = "exists_with_different_pending_id",
    /// The id is stored with another debit account.
    ExistsWithDifferentDebitAccountId = "exists_with_different_debit_account_id",
    /// The id is stored with another credit account.
    ExistsWithDifferentCreditAccountId = "exists_with_different_credit_account_id",
    /// The id is stored with another amount.
    ExistsWithDifferentAmount = "exists_with_different_amount",
    /// The id is stored with another `user_data_128`.
    ExistsWithDifferentUserData128 = "exists_with_different_user_data_128",
    /// The id is stored with another `user_data_64`.
    ExistsWithDifferentUserData64 = "exists_with_different_user_data_64",
    /// The id is stored with another `user_data_32`.
    ExistsWithDifferentUserData32 = "exists_with_different_user_data_32",
    /// The id is stored with another ledger.
    ExistsWithDifferentLedger = "exists_with_different_ledger",
    /// The id is stored with another code.
    ExistsWithDifferentCode = "exists_with_different_code",
    /// The id is stored with another timeout.
    ExistsWithDifferentTimeout = "exists_with_different_timeout",
    /// The same event is stored already.
    Exists = "exists",
    /// A transfer with this id failed before, for a passing reason.
    IdAlreadyFailed = "id_already_failed",
    /// The debit account's pending debits would be above `2^128 - 1`.
    OverflowsDebitsPending = "overflows_debits_pending",
    /// The credit account's pending credits would be above `2^128 - 1`.
    OverflowsCreditsPending = "overflows_credits_pending",
    /// The debit account's posted debits would be above `2^128 - 1`.
    OverflowsDebitsPosted = "overflows_debits_posted",
    /// The credit account's posted credits would be above `2^128 - 1`.
    OverflowsCreditsPosted = "overflows_credits_posted",
    /// The debit account's debits together would be above `2^128 - 1`.
    OverflowsDebits = "overflows_debits",
    /// The credit account's credits together would be above `2^128 - 1`.
    OverflowsCredits = "overflows_credits",
    /// The pending transfer would expire after `TIMESTAMP_MAX`.
    OverflowsTimeout = "overflows_timeout",
    /// The debit account's debits would be above its posted credits.
    ExceedsCredits = "exceeds_credits",
    /// The credit account's credits would be above its posted debits.
    ExceedsDebits = "exceeds_debits",
}

impl Outcome {
    /// Whether the reason of a transfer's failure may pass, so that its id stays failed.
    pub fn may_pass(self) -> bool {
        matches!(
            self,
            Outcome::DebitAccountNotFound
                | Outcome::CreditAccountNotFound
                | Outcome::PendingTransferNotFound
                | Outcome::ExceedsCredits
                | Outcome::ExceedsDebits
                | Outcome::DebitAccountAlreadyClosed
                | Outcome::CreditAccountAlreadyClosed
        )
    }
}
