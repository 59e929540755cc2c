/* Numbers of 128 bits: the compiler's names for what WebAssembly has no instruction for. A shift is by 0 to 127 places. */
#ifndef PBCUBE_WIDE_H
#define PBCUBE_WIDE_H

typedef unsigned __int128 uint128;

uint128 __multi3(uint128 one, uint128 other);
uint128 __ashlti3(uint128 number, int places);
uint128 __lshrti3(uint128 number, int places);
uint128 __ashrti3(uint128 number, int places);
uint128 __udivti3(uint128 number, uint128 divisor);
uint128 __divti3(uint128 number, uint128 divisor);
uint128 __umodti3(uint128 number, uint128 divisor);

#endif
