/* Numbers of 128 bits: three functions that clang calls, which are part of no library for this target. Compiled by packaging/wasm. */
typedef unsigned long u64;
typedef unsigned __int128 wide;
typedef union { wide whole; struct { u64 low, high; } half; } halves;
wide __ashlti3(wide number, int by) {
  halves from = {number}, to;
  if (by & 64) { to.half.low = 0; to.half.high = from.half.low << (by & 63); }
  else if (!by) return number;
  else { to.half.low = from.half.low << by; to.half.high = from.half.high << by | from.half.low >> (64 - by); }
  return to.whole;
}
wide __lshrti3(wide number, int by) {
  halves from = {number}, to;
  if (by & 64) { to.half.high = 0; to.half.low = from.half.high >> (by & 63); }
  else if (!by) return number;
  else { to.half.high = from.half.high >> by; to.half.low = from.half.low >> by | from.half.high << (64 - by); }
  return to.whole;
}
/* The product of two numbers of 64 bits, from those of their halves of 32. */
static halves product(u64 a, u64 b) {
  u64 mask = 0xffffffff, low = (a & mask) * (b & mask), left = (a >> 32) * (b & mask), right = (a & mask) * (b >> 32);
  u64 middle = (low >> 32) + (left & mask) + (right & mask);
  halves found;
  found.half.low = middle << 32 | (low & mask);
  found.half.high = (a >> 32) * (b >> 32) + (left >> 32) + (right >> 32) + (middle >> 32);
  return found;
}
wide __multi3(wide one, wide other) {
  halves a = {one}, b = {other}, found = product(a.half.low, b.half.low);
  found.half.high += a.half.low * b.half.high + a.half.high * b.half.low;
  return found.whole;
}
