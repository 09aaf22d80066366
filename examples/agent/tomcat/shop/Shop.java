package shop;

import jakarta.servlet.http.HttpServlet;
import jakarta.servlet.http.HttpServletRequest;
import jakarta.servlet.http.HttpServletResponse;
import java.io.IOException;
import java.util.List;
import java.util.stream.Collectors;

/** Tells the prices of as many as the path says. */
public final class Shop extends HttpServlet {
    private static final long serialVersionUID = 1;

    private final transient List<Price> prices = List.of(new Plain(), new Reduced(), new Gift());

    @Override
    protected void doGet(HttpServletRequest request, HttpServletResponse response) throws IOException {
        int number = Integer.parseInt(request.getPathInfo().substring(1));
        response.getWriter().print(prices.stream().map(price -> price.told(number)).collect(Collectors.joining(", ")));
    }
}
