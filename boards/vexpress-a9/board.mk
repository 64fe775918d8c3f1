# Its MMU is off, and then exclusive access to memory need not succeed (PN_NO_ATOMICS).
# With SUFFIX=-words the firmware programs word by word, without the buffer of the chips; it is in build/vexpress-a9-words.
PROCESSOR := -mcpu=cortex-a9 -mthumb -mfloat-abi=hard -mfpu=vfpv3-d16 -mno-unaligned-access -DPN_NO_ATOMICS $(if $(filter -words,$(SUFFIX)),-DNOR_MOST_BUFFER=0u)
TARGET := thumbv7a-none-eabihf
OWN := board chip nor lan9118
MERGED_OWN :=
