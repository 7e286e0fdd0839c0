function F(): int { 1 }
