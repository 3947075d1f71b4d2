"""xlwt_book.py FILE ROWS: a workbook of numbers."""
import sys

import xlwt

book = xlwt.Workbook()
sheet = book.add_sheet("Site")
for row in range(int(sys.argv[2])):
    sheet.write(row, 0, row * 7919)
book.save(sys.argv[1])
