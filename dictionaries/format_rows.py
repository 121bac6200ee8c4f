"""The data formats (RFC 6733 sections 4.2 and 4.3, and QoSFilterRule of RFC 3588 section 4.3): a row for each, for all scripts.

A row has the name, the data that the format accepts, and how a text writes them: "signed" and "unsigned" are numbers in
decimal, "text" stands in quotes, and "bytes" are hexadecimal alone."""

ROWS = (
    ("OctetString", "any", "text"),
    ("Integer32", 4, "signed"),
    ("Integer64", 8, "signed"),
    ("Unsigned32", 4, "unsigned"),
    ("Unsigned64", 8, "unsigned"),
    ("Float32", 4, "bytes"),
    ("Float64", 8, "bytes"),
    ("Grouped", "AVPs", "AVPs"),
    ("Address", "an address", "an address"),
    ("Time", 4, "unsigned"),
    ("UTF8String", "UTF-8", "text"),
    ("DiameterIdentity", "an identity", "text"),
    ("DiameterURI", "a URI", "text"),
    ("Enumerated", "a number of its list", "signed"),
    ("IPFilterRule", "any", "text"),
    ("QoSFilterRule", "any", "text"),
)
