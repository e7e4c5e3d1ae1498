"""python3 -m lvdc.check FILE .."""
from lvdc.check.main import main

main()
