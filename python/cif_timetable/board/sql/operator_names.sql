SELECT operator, operator_name
FROM operators;
