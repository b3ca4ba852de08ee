a: b c
  echo a
b: c
  echo b
c:
  echo c
