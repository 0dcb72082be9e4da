"""The output of the stream tools for a text, one line of code for each tool."""
import re


def added(text):
    return text.replace(b"\n", b"\r\n")


def deleted(text):
    text = text.replace(b"\r\n", b"\n")
    return text[:-1] if text.endswith(b"\r") else text


def fixed(text):
    return re.sub(rb"(?<!\r)\n", b"\r\n", text)
