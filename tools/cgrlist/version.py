"""The version of the tools and of the package."""

VERSION = "1.2.0"
