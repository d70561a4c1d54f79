// The answers of the proved code and of the yardstick, compared.
#pragma once

// 0 if all are equal, 1 if any differ or nothing of some kind was compared.
int check_answers();
