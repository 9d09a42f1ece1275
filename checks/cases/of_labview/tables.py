"""What `labview table` writes of the logs of a report."""

from case import Case
from of_labview.pictures import ONE, TWO

REPORT = """\
lab 1
instrument scale 2
a 1 1/1 add 1 = 1
b 1 1/2 read = 1
instrument lamp 1
a 2 1/1 set 70 = 70
instrument oven 0
job a sessions 2 of 2 meals 1 retired
job b sessions 0 of 1 meals 2 waiting
unfinished
"""

HEAD = "instrument,entry,job,session,place,length,verb,number,value\n"

TABLE = """\
scale,1,a,1,1,1,add,1,1
scale,2,b,1,1,2,read,,1
lamp,1,a,2,1,1,set,70,70
"""

TABLE_OF_ONE = """\
scale,1,a,1,1,1,add,1,1
scale,2,b-2,1,1,2,set,999999,999999
instrument,1,a,1,1,1,read,,0
"""

CASES = [
    Case("by_its_bytes", "table", REPORT, HEAD + TABLE),
    Case("no_logs", "table", "lab 1\nfinished\n", HEAD),
    Case("version_one", "table", ONE, HEAD + TABLE_OF_ONE),
    Case("version_two", "table", TWO, HEAD + "scale,1,a,1,1,1,add,1,1\n"),
]
