"""python3 -m lvdc.lvdb FILE"""
from lvdc.lvdb.main import main

main()
