"""Lets programs that tests start call the stand-in for the library: this folder is on their path where none is built."""
import stand_in

stand_in.install()
