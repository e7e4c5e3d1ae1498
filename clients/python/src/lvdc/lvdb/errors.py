"""What a command answers where it can't be carried out."""
from lvdc.errors import Error


class CommandError(Error):
    """A command that is refused: the message says what would be right. Nothing was changed."""
