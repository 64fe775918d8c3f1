PROCESSOR := -mcpu=cortex-m4 -mthumb -mfloat-abi=hard -mfpu=fpv4-sp-d16
TARGET := thumbv7em-none-eabihf
OWN := board semihosting_chip lan9118
MERGED_OWN := board
