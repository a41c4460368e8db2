"""The version that the bridge tells. Clients take it for a number, and this is the one whose rules the server has."""

VERSION = "4.9.0"
