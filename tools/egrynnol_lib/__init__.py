"""The command egrynnol: traces of the application transport, over the proved programs."""

VERSION = "4.0.0"  # the header's too
