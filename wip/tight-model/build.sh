set -e
cd /work/keep/tight-model
for b in 48 20 17; do gcc -O2 -g -fsanitize=address,undefined -std=c11 -Wall -Wextra -DTIGHT_WHOLE="((uint64_t)1 << $b)" -I/work/w8/bench driver.c /work/w8/bench/tight.c -o driver$b; done
