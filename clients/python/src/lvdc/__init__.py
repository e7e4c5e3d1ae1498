"""Decks, reports, traces and studies of the Launch Vehicle Digital Computer as objects.

Every number about the machine comes from a text that the program lvdc-worker wrote, which is proved; this package is not. It makes the
texts that are asked and reads those that are answered, whole: a line that it doesn't know is an error that names the line.

>>> import lvdc
>>> deck = lvdc.Deck(lvdc.Image({lvdc.Address(0, 0, 0): 0o17000, lvdc.Address(0, 1, 0): 5}), count=1)
>>> print(lvdc.run(deck).registers.a)
000000005
"""
from lvdc import models, plots, scripts
from lvdc.censuses import Census, census
from lvdc.commands import ask, assemble, assemble_image, debug, expand, form, resume, run, save, shared_worker, soak, trace, uplink
from lvdc.decks import Deck, Source, Tape, Unplug
from lvdc.ends import Admissible, DeviceFailed, Done, End, Inadmissible, Logic, Memory, Stopped, Verdict
from lvdc.errors import Error
from lvdc.expansions import Expansion
from lvdc.faults import Damage, Dead, Deaf, Fault, Flip, Force, Lag, Stick, read_fault
from lvdc.images import Image
from lvdc.intervals import Share, wilson
from lvdc.lines import Unread
from lvdc.listings import Listing
from lvdc.pools import Pool, Request
from lvdc.populations import Population
from lvdc.refusals import NoAnswer, NoMemory, NotACommand, Refused
from lvdc.reports import Exchange, Kind, Registers, Repair, Report, Soak
from lvdc.rows import CampaignRow, CampaignRows, Differs, Outcome, Same, StudyRow, StudyRows
from lvdc.saved import Saved
from lvdc.scripts import Script
from lvdc.sessions import Session
from lvdc.steps import Step
from lvdc.studies import Findings, campaign, study, study_each
from lvdc.tables import is_admissible, is_different, is_inadmissible
from lvdc.traces import Difference, Form, Trace
from lvdc.uplinks import Uplink
from lvdc.values import Address, Cell, Hop, Place, Port, Word
from lvdc.version import __version__
from lvdc.workers import Closed, NoWorker, Reply, TimeLimit, Worker, WorkerFailed

__all__ = ["Address", "Admissible", "CampaignRow", "CampaignRows", "Cell", "Census", "Closed", "Damage", "Dead", "Deaf", "Deck", "DeviceFailed",
    "Difference", "Differs", "Done", "End", "Error", "Exchange", "Expansion", "Fault", "Findings", "Flip", "Force", "Form", "Hop", "Image",
    "Inadmissible", "Kind", "Lag", "Listing", "Logic", "Memory", "NoAnswer", "NoMemory", "NoWorker", "NotACommand", "Outcome", "Place",
    "Pool", "Population", "Port", "Refused", "Registers", "Repair", "Reply", "Report", "Request", "Same", "Saved", "Script", "Session",
    "Share", "Soak", "Source", "Step", "Stick", "Stopped", "StudyRow", "StudyRows", "Tape", "TimeLimit", "Trace", "Unplug", "Unread",
    "Uplink", "Verdict", "Word", "Worker", "WorkerFailed", "__version__", "ask", "assemble", "assemble_image", "campaign", "census", "debug",
    "expand", "form", "is_admissible", "is_different", "is_inadmissible", "models", "plots", "read_fault", "resume", "run", "save", "scripts",
    "shared_worker", "soak", "study", "study_each", "trace", "uplink", "wilson"]
